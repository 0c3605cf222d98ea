"""Runs under a library that records their writes and syncs, kills them at a call or fails a sync."""

import os
import pathlib
import subprocess
from collections.abc import Iterator
from dataclasses import dataclass

import common
from common import Ended
from statements import Case


@dataclass(frozen=True)
class Step:
    """What a run did: its kind and file as `recording.c` has them, an offset or a length, and the bytes of a write."""

    kind: str
    file: str
    at: int
    data: bytes = b""


def build(folder: pathlib.Path) -> pathlib.Path:
    """The library."""
    library = folder / "recording.so"
    source = pathlib.Path(__file__).with_name("recording.c")
    subprocess.run(["cc", "-shared", "-fPIC", "-O2", "-o", library, source], check=True)
    return library


def step(line: bytes, rest: memoryview) -> tuple[Step, int]:
    """The step of a line, and how many bytes behind it are its own."""
    match line.decode().split():
        case ["w", file, at, length]:
            return Step("w", file, int(at), bytes(rest[: int(length)])), int(length)
        case ["o", length]:
            return Step("o", "", 0, bytes(rest[: int(length)])), int(length)
        case ["c", file, length]:
            return Step("c", file, int(length)), 0
        case [("s" | "e") as kind, file]:
            return Step(kind, file, 0), 0
    raise ValueError(f"no step: {line!r}")


def steps(record: bytes) -> Iterator[Step]:
    """The steps of a record in their order."""
    view, place = memoryview(record), 0
    while place < len(record):
        end = record.index(b"\n", place)
        found, length = step(record[place:end], view[end + 1 :])
        yield found
        place = end + 1 + length


def run(
    program: pathlib.Path, library: pathlib.Path, case: Case, path: pathlib.Path, **settings: int
) -> tuple[Ended, list[Step]]:
    """The case's statements over a copy of its file at the path: how the run ended, and its steps."""
    common.remove(path)
    if case.file.exists():
        path.write_bytes(case.file.read_bytes())
    record = path.with_suffix(".record")
    environment = {name.upper(): str(value) for name, value in settings.items()}
    environment |= {"LD_PRELOAD": str(library), "RECORD": str(record), "PATH": os.environ["PATH"]}
    ended = common.run(program, [path, "run"], case.script(), environment=environment)
    found = list(steps(record.read_bytes()))
    record.unlink()
    return ended, found
