"""Which program a command runs: that of a release, the proved build of these sources, or one made without proofs."""

import os
import pathlib
from collections.abc import Iterator
from typing import NamedTuple

from tools.kept import NotBuilt, unproved
from tools.repository import PARTS, TOP, Repository

# No build without proofs is made of these: one keeps a file, the other is asked for seldom.
NEVER_UNPROVED = ("piql_file", "piql_plan")


class Program(NamedTuple):
    """A program's file, and whether it was built from proved sources."""

    path: pathlib.Path
    is_proved: bool


def sources(repository: Repository, crate: str) -> Iterator[pathlib.Path]:
    """All that the proof of a program reads."""
    yield repository.top / "crates.txt"
    for name in {crate, *repository.below(crate)}:
        for part in PARTS:
            yield from (path for path in (repository.folder(name) / part).rglob("*") if path.is_file())


def proved_build(repository: Repository, crate: str) -> pathlib.Path | None:
    """The proved build, where it is there and no source is newer."""
    program = repository.folder(crate) / "out" / crate
    if not os.access(program, os.X_OK):
        return None
    made = program.stat().st_mtime_ns
    is_older = any(path.stat().st_mtime_ns > made for path in sources(repository, crate))
    return None if is_older else program


def released(crate: str, top: pathlib.Path = TOP) -> pathlib.Path | None:
    """The program of an unpacked release, which has no sources."""
    program = top / "programs" / crate
    return program if os.access(program, os.X_OK) else None


def proved_program(crate: str) -> pathlib.Path | None:
    """The proved program, that of a release or of these sources."""
    if found := released(crate):
        return found
    return proved_build(Repository(), crate) if (TOP / "crates.txt").exists() else None


def find_program(crate: str) -> Program:
    """The program to run. No file that is kept is touched by a build without proofs."""
    if found := proved_program(crate):
        return Program(found, True)
    if not (TOP / "crates.txt").exists():
        raise NotBuilt("the release has no program of this name")
    if crate in NEVER_UNPROVED:
        raise NotBuilt(f"there is no proved build of these sources; bin/prove {crate} makes it")
    return Program(unproved(Repository(), crate), False)
