"""Proves a program in a copy of the checkout that has its crates alone, and takes the build from there."""

import os
import pathlib
import shutil
import subprocess
import sys
import tempfile
import time
from typing import BinaryIO

from tools.repository import TOP, Repository
from tools.statuses import NO_PROGRAM, USAGE

# What a crate's folder has beside its sources: what was made of them, and the wrong bodies, which have no part in a build.
LEFT_OUT = {"out", "must-fail"}


def tell(line: str) -> None:
    print(f"prove: {line}", file=sys.stderr, flush=True)


# A crate that so large a part of the others stand on, and that has so many bytes of sources, is proved before them.
MOST, LARGE = 2 / 3, 100_000


def closure(repository: Repository, program: str) -> list[str]:
    """A program's crate and those that it stands on, lowest first."""
    return [name for name in repository.uses if name in {program, *repository.below(program)}]


def bytes_of(repository: Repository, crate: str) -> int:
    """How many bytes the sources of a crate have, with its definitions and proofs."""
    folders = [repository.folder(crate) / part for part in ("src", "specs", "proofs")]
    return sum(file.stat().st_size for folder in folders for file in folder.rglob("*") if file.is_file())


def alone(repository: Repository, program: str) -> list[str]:
    """The crates that are proved one by one, by several processors each. Side by side with others a proof gets one
    processor, and a large one then takes longer than all that could be proved beside it, while most of the crates wait
    for it."""
    crates = closure(repository, program)
    awaited = {name: sum(name in repository.below(other) for other in crates) for name in crates}
    return [
        name
        for name in crates
        if awaited[name] >= MOST * (len(crates) - 1) and bytes_of(repository, name) >= LARGE
    ]


def beside(repository: Repository, program: str, first: str) -> list[str]:
    """The crates that can be proved beside one that the others wait for: those that don't stand on it."""
    return [
        name
        for name in closure(repository, program)
        if name != first and first not in repository.below(name) and name not in repository.below(first)
    ]


def start(names: list[str], room: pathlib.Path, log: BinaryIO, processors: int | None = None) -> subprocess.Popen[bytes]:
    """Has the toolchain prove these crates of the copy, or all where none is named."""
    env = None if processors is None else {**os.environ, "RT_JOBS": str(processors)}
    how = {"stdin": subprocess.DEVNULL, "stdout": log, "stderr": subprocess.STDOUT, "env": env}
    return subprocess.Popen(["rt", "ci", *names], cwd=room, **how)


def run_all(repository: Repository, program: str, room: pathlib.Path, log: BinaryIO) -> bool:
    """Proves the crates of the copy. What a run comes to while another one proves it, it takes from there."""
    half = max(1, (os.cpu_count() or 1) // 2)
    others = []
    try:
        for first in alone(repository, program):
            if names := beside(repository, program, first):
                others.append(start(names, room, log, half))
            if start([first], room, log).wait() != 0:
                return False
        return start([], room, log).wait() == 0
    finally:
        for run in others:
            run.wait()


def copy_crates(repository: Repository, program: str, room: pathlib.Path) -> None:
    """Copies a program's crate and those that it stands on."""
    crates = closure(repository, program)
    for name in crates:
        for part in repository.folder(name).iterdir():
            to = room / "crates" / name / part.name
            to.parent.mkdir(parents=True, exist_ok=True)
            if part.is_file():
                shutil.copyfile(part, to)
            elif part.name not in LEFT_OUT:
                shutil.copytree(part, to)
    lines = [f"{name}: {' '.join(repository.uses[name])}".rstrip() + "\n" for name in crates]
    (room / "crates.txt").write_text("".join(lines))
    shutil.copyfile(repository.top / "HANDLES", room / "HANDLES")


def keep_build(made: pathlib.Path, program: pathlib.Path, begun: float) -> None:
    """Puts a build in its place, as old as the copy: a source that was changed since is newer."""
    beside = program.with_name(f"{program.name}.new")
    shutil.copyfile(made, beside)
    beside.chmod(0o755)
    os.utime(beside, (begun, begun))
    beside.replace(program)


def build(repository: Repository, program: str) -> bool:
    """Proves a program and what it stands on, and keeps its build. False where it isn't proved."""
    out = repository.folder(program) / "out"
    out.mkdir(exist_ok=True)
    with tempfile.TemporaryDirectory(prefix="prove-") as name, (out / f"{program}.log").open("wb") as log:
        begun, room = time.time(), pathlib.Path(name)
        copy_crates(repository, program, room)
        proved = run_all(repository, program, room, log)
        made = room / "crates" / program / "out" / program
        if not proved or not os.access(made, os.X_OK):
            return False
        keep_build(made, out / program, begun)
    return True


def main(words: list[str]) -> int:
    repository = Repository(TOP)
    program = words[0] if words else "piql"
    if len(words) > 1 or program not in repository.uses or not (repository.folder(program) / "src/main.rt").exists():
        tell(f"`{program}` is no program; bin/prove --help")
        return USAGE
    if shutil.which("rt") is None:
        tell("the toolchain's command rt isn't on the PATH")
        return NO_PROGRAM
    log = f"crates/{program}/out/{program}.log"
    tell(f"proving {program}; {log} has how far it is")
    if not build(repository, program):
        tell(f"the build failed, see {log}")
        return NO_PROGRAM
    tell(f"{program} is proved and built: crates/{program}/out/{program}")
    return 0
