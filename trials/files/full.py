"""A disk that is full: what was told is there, look-ups are answered, and a write is refused."""

import contextlib
import os
import pathlib
import subprocess
from collections.abc import Iterator

from common import answers, expect, fail, reports, run

SIZE, MORE = "2m", "4m"
STORE_FAULT = 5
LOOKUPS = 30
DEFINITIONS = b"""\
CREATE TABLE m (id INT, v INT, note TEXT(1000), PRIMARY KEY (id), CARDINALITY LIMIT 10000 (v));
PREPARE one AS SELECT m.v FROM m WHERE m.id = [1];
"""


def inserts(first: int, number: int) -> bytes:
    rows = (f"INSERT INTO m VALUES ({key}, {key % 7}, '{'n' * 900}');\n" for key in range(first, first + number))
    return "".join(rows).encode()


@contextlib.contextmanager
def small_disk(folder: pathlib.Path) -> Iterator[pathlib.Path]:
    """A disk of two megabytes in memory, which only root may mount."""
    disk = folder / "disk"
    disk.mkdir()
    subprocess.run(["mount", "-t", "tmpfs", "-o", f"size={SIZE}", "tmpfs", disk], check=True)
    try:
        yield disk
    finally:
        subprocess.run(["umount", disk], check=True)


def fill(disk: pathlib.Path) -> None:
    """Takes what is left of the disk."""
    with contextlib.suppress(OSError), (disk / "rest").open("wb", buffering=0) as rest:
        while rest.write(bytes(512)):
            pass


def are_answered(program: pathlib.Path, path: pathlib.Path) -> None:
    script = "".join(f"RUN one ({key});\n" for key in range(LOOKUPS)).encode()
    expect("the look-ups that are answered", LOOKUPS, answers(program, path, script).count(b" ok rows 1 "))


def try_all(program: pathlib.Path, folder: pathlib.Path) -> None:
    if os.geteuid() != 0:
        print("full: only root may mount a small disk", flush=True)
        return
    with small_disk(folder) as disk:
        path = disk / "full.db"
        answers(program, path, DEFINITIONS)
        ended = run(program, [path, "run"], inserts(0, 3000))
        expect("the status of a run that fills the disk", STORE_FAULT, ended.status)
        told = reports(ended.output)
        if told < LOOKUPS:
            fail("a run that fills the disk", f"only {told} rows were told")
        fill(disk)
        are_answered(program, path)
        expect("a write over a full disk", STORE_FAULT, run(program, [path, "run"], inserts(5000, 1)).status)
        are_answered(program, path)
        subprocess.run(["mount", "-o", f"remount,size={MORE}", disk], check=True)
        last = answers(program, path, f"RUN one ({told - 1});\n".encode() + inserts(5000, 1))
        expect("the last row that was told, and a write, with room again", 2, reports(last))
        if b" ok rows 1 " not in last:
            fail("with room again", f"the last row that was told isn't there: {last!r}")
    print(f"a full disk: {told} rows told and there, {LOOKUPS} of {LOOKUPS} look-ups answered twice", flush=True)
