"""What the disk may hold behind a kill with the loss of power: all that was synced, and of the rest any part."""

import random
from collections.abc import Iterator, Sequence
from dataclasses import dataclass, field

from recorded import Step

SECTOR = 512
# How likely a write that wasn't synced is there whole, and how likely a sector of one that is there in part.
WHOLE, PART = 0.4, 0.5


@dataclass
class Disk:
    """A file: the bytes that are there for good, and the steps that no sync made so yet."""

    there: bytearray
    waiting: list[Step] = field(default_factory=list)

    def sync(self) -> None:
        for step in self.waiting:
            make(self.there, step)
        self.waiting.clear()

    def fail_sync(self, chance: random.Random) -> None:
        """Of what waited some part is there, and no later sync makes the rest so."""
        lose(self.there, self.waiting, chance)
        self.waiting.clear()


def make(there: bytearray, step: Step) -> None:
    """Makes a write or a cut whole. What lies between the end and a write behind it is zeros."""
    if step.kind == "c":
        del there[step.at :]
        there.extend(bytes(step.at - len(there)))
        return
    there.extend(bytes(max(step.at - len(there), 0)))
    there[step.at : step.at + len(step.data)] = step.data


def sectors(step: Step) -> Iterator[Step]:
    """A write as writes of the sectors of the disk that it meets."""
    place, end = step.at, step.at + len(step.data)
    while place < end:
        next_place = min((place // SECTOR + 1) * SECTOR, end)
        yield Step("w", step.file, place, step.data[place - step.at : next_place - step.at])
        place = next_place


def lose(there: bytearray, waiting: Sequence[Step], chance: random.Random) -> None:
    """Makes a part of the steps that is drawn: each whole, or not, or of a write some sectors."""
    for step in waiting:
        draw = chance.random()
        if draw < WHOLE:
            make(there, step)
        elif step.kind == "w" and draw < (1 + WHOLE) / 2:
            lose_sectors(there, step, chance)


def lose_sectors(there: bytearray, step: Step, chance: random.Random) -> None:
    for sector in sectors(step):
        if chance.random() < PART:
            make(there, sector)


@dataclass(frozen=True)
class Image:
    """Both files at a moment, and what was written to standard output by then."""

    files: dict[str, bytes]
    told: bytes


class Moments:
    """The disk behind each step of a run, from the files that it began with."""

    def __init__(self, database: bytes, chance: random.Random) -> None:
        self.disks = {"d": Disk(bytearray(database)), "l": Disk(bytearray())}
        self.told = b""
        self.chance = chance

    def pass_step(self, step: Step) -> None:
        match step.kind:
            case "o":
                self.told += step.data
            case "s":
                self.disks[step.file].sync()
            case "e":
                self.disks[step.file].fail_sync(self.chance)
            case _:
                self.disks[step.file].waiting.append(step)

    def image(self) -> Image:
        """What the disk may hold at this moment: all that was synced, and of the rest a part that is drawn."""
        files = {}
        for name, disk in self.disks.items():
            there = bytearray(disk.there)
            lose(there, disk.waiting, self.chance)
            files[name] = bytes(there)
        return Image(files, self.told)

    def has_losses(self) -> bool:
        """Whether something may be lost at this moment."""
        return any(disk.waiting for disk in self.disks.values())
