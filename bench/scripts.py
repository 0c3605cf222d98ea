"""The scripts of a workload at some size, and what its timed statements take of an engine."""

import pathlib
from collections.abc import Mapping
from dataclasses import dataclass, field

from children import Children, Counts, Taken, Word, counted
from workloads import WORKLOADS

# Each workload's small and whole size: the time for a statement should be nearly the same.
SIZES = {
    "fill": (1_000, 20_000),
    "inserts": (5_000, 100_000),
    "indexes": (5_000, 100_000),
    "runs": (5_000, 100_000),
    "feed": (1_000, 20_000),
    "wide": (400, 8_000),
}
PARTS = ("ground", "script")


@dataclass(frozen=True)
class Scripts:
    """A workload of some size, whose files stand in a folder, with how many statements are timed, and what they are."""

    name: str
    count: int
    folder: pathlib.Path
    statements: int
    text: str

    def part(self, name: str) -> pathlib.Path:
        """One of its files."""
        return self.folder / name

    def has_query(self) -> bool:
        """Whether the timed statements are runs of one query."""
        return self.part("query.sql").exists()


def written(name: str, count: int, folder: pathlib.Path) -> Scripts:
    """A workload's scripts."""
    folder = folder / f"{name}-{count}"
    folder.mkdir(exist_ok=True)
    made = WORKLOADS[name](count)
    made.write(folder)
    return Scripts(name, count, folder, len(made.timed), made.text)


def engine_words(program: str, scripts: Scripts, part: str) -> list[Word]:
    """The engine's words for the ground or the whole script of a workload."""
    is_made = scripts.name == "fill" and part == "script"
    return [program, "fill", str(scripts.count)] if is_made else [program, "run"]


@dataclass(frozen=True)
class Engine:
    """A build of the engine, and what its processes have in their environment besides this one's."""

    program: str
    environment: Mapping[str, str] = field(default_factory=dict)

    def taken(self, children: Children, scripts: Scripts) -> Taken:
        """What the timed statements take, and the peak of their whole script."""
        ground, whole = (
            children.least(engine_words(self.program, scripts, part), scripts.part(f"{part}.piql"), self.environment)
            for part in PARTS
        )
        return Taken(whole.seconds - ground.seconds, whole.peak)

    def counts(self, scripts: Scripts) -> Counts:
        """The instructions and mallocs of the timed statements."""
        ground, whole = (
            counted(engine_words(self.program, scripts, part), scripts.part(f"{part}.piql"), self.environment)
            for part in PARTS
        )
        return whole - ground
