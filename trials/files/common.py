"""Runs of the program over files, and what stands in a file behind them."""

import contextlib
import os
import pathlib
import re
import sqlite3
import subprocess
import sys
from dataclasses import dataclass
from typing import NoReturn

TOP = pathlib.Path(__file__).resolve().parent.parent.parent
BUILD = TOP / "crates/piql_file/out/piql_file"
# The seconds after which a run counts as one that hangs.
LIMIT = 600
REPORT = re.compile(rb"^\d+ (?:ok|refused)\b", re.MULTILINE)

Pairs = list[tuple[bytes, bytes]]


@dataclass(frozen=True)
class Ended:
    """How a run ended: its status, below 0 for a signal, and what it wrote."""

    status: int
    output: bytes
    errors: bytes


def fail(case: str, text: str) -> NoReturn:
    sys.exit(f"files: {case}: {text}")


def expect(case: str, wanted: object, found: object) -> None:
    if found != wanted:
        fail(case, f"{found!r} stands where {wanted!r} must")


def run(
    program: pathlib.Path,
    words: list[str | bytes | pathlib.Path],
    script: bytes = b"",
    *,
    environment: dict[str, str] | None = None,
    user: int | None = None,
) -> Ended:
    """A run of the program with these words. A user that is given runs it, without groups."""
    how = {"user": user, "group": user, "extra_groups": []} if user else {}
    done = subprocess.run(
        [program, *words], input=script, capture_output=True, timeout=LIMIT, env=environment, check=False, **how
    )
    return Ended(done.returncode, done.stdout, done.stderr)


def answers(program: pathlib.Path, path: pathlib.Path, script: bytes) -> bytes:
    """The output of a run over a file that ends well."""
    ended = run(program, [path, "run"], script)
    if ended.status != 0 or ended.errors:
        fail(f"a run over {path.name}", f"status {ended.status}, {ended.output + ended.errors!r}")
    return ended.output


def knows_batches(program: pathlib.Path, folder: pathlib.Path) -> bool:
    """Whether the program's language has BATCH, as that of an earlier version hasn't."""
    path = folder / "batches.db"
    ended = run(program, [path, "run"], b"CREATE TABLE m (id INT, PRIMARY KEY (id)); BATCH INSERT INTO m VALUES (1);")
    remove(path)
    return ended.status == 0


def reports(output: bytes) -> int:
    """How many reports were written whole."""
    whole, _, _ = output.rpartition(b"\n")
    return len(REPORT.findall(whole))


def asked(path: pathlib.Path, *queries: str) -> list[list[tuple]]:
    """What sqlite3 answers to queries over a file."""
    with contextlib.closing(sqlite3.connect(path)) as connection:
        return [connection.execute(query).fetchall() for query in queries]


def sound_pairs(path: pathlib.Path) -> Pairs:
    """All pairs of a file, in the order of their keys. sqlite3 has to find it sound."""
    state, pairs = asked(path, "PRAGMA integrity_check", "SELECT k, v FROM kv ORDER BY k")
    expect(f"what sqlite3 says of {path.name}", [("ok",)], state)
    return pairs


def remove(path: pathlib.Path) -> None:
    """Removes a database and what lies beside it."""
    for name in (path, *(path.with_name(path.name + end) for end in ("-wal", "-shm", "-journal"))):
        with contextlib.suppress(FileNotFoundError):
            os.remove(name)
