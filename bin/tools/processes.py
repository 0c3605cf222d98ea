"""The processes of a machine with Linux, and the processor seconds of those below one of them."""

import dataclasses
import os
import pathlib

PROC = pathlib.Path("/proc")
TICKS = os.sysconf("SC_CLK_TCK")


@dataclasses.dataclass(frozen=True)
class Process:
    """A process as it was at one moment. Its seconds have those of its ended children, whom it waited for."""

    number: int
    start: int
    parent: int
    words: tuple[str, ...]
    folder: str
    own: float
    ended: float

    @property
    def key(self) -> tuple[int, int]:
        """What no other process shares, also later."""
        return self.number, self.start


def of_number(number: int) -> Process | None:
    """The process of this number, or None where it has ended."""
    try:
        fields = (PROC / str(number) / "stat").read_text(errors="replace").rpartition(")")[2].split()
        words = (PROC / str(number) / "cmdline").read_bytes().decode(errors="replace").split("\0")[:-1]
        folder = os.readlink(PROC / str(number) / "cwd")
    except OSError:
        return None
    user, system, ended_user, ended_system = (int(field) / TICKS for field in fields[11:15])
    own, ended = user + system, ended_user + ended_system
    return Process(number, int(fields[19]), int(fields[1]), tuple(words), folder, own, ended)


def all_of() -> dict[int, Process]:
    """All processes, by their numbers."""
    numbers = (int(path.name) for path in PROC.iterdir() if path.name.isdigit())
    return {number: process for number in numbers if (process := of_number(number))}


def children_of(processes: dict[int, Process]) -> dict[int, list[Process]]:
    found: dict[int, list[Process]] = {}
    for process in processes.values():
        found.setdefault(process.parent, []).append(process)
    return found


def seconds_of(process: Process, children: dict[int, list[Process]]) -> float:
    """The seconds of a process with all below it."""
    below = sum(seconds_of(child, children) for child in children.get(process.number, ()))
    return process.own + process.ended + below
