"""What a file holds: behind each statement of a script, and behind a run whose memory was refused."""

import contextlib
import os
import pathlib
import sqlite3

from program import TOP, run, whole_parts

SCRIPTS = TOP / "trials/stores"
NO_MEMORY = 7
# Want of memory in the middle of a statement: the file undoes it.
STORE_FAULT = 5


def scripts():
    """The scripts, by name: a statement a line."""
    return {path.stem: path.read_bytes().splitlines(keepends=True) for path in sorted(SCRIPTS.glob("*.piql"))}


def pairs(path):
    """All pairs of a file, in the order of their keys. A file that was never opened has none."""
    if not os.path.exists(path):
        return []
    with contextlib.closing(sqlite3.connect(f"{pathlib.Path(path).as_uri()}?mode=ro", uri=True)) as file:
        return file.execute("SELECT k, v FROM kv ORDER BY k").fetchall()


def states(program, statements, folder):
    """The pairs before the first statement and behind each, with a run for each of them over one file."""
    path = f"{folder}/whole.db"
    found = []
    for statement in [b"", *statements]:
        ended = run(program, statement, path=path)
        if ended.status != 0:
            raise SystemExit(f"trials: {statement!r} ends with {ended.status}")
        found.append(pairs(path))
    return found


def strange(ended, again, held, whole, allowed):
    """What is wrong with a run, or with the file that it left and that was opened again; or None."""
    if ended.errors or again.errors:
        return "words on standard error"
    if again.status != 0:
        return f"opened again with status {again.status}"
    if (ended.status, ended.output) == (whole.status, whole.output):
        return None if held == allowed[-1] else "other tables behind the whole script"
    if ended.status not in (NO_MEMORY, STORE_FAULT):
        return "no end" if ended.status is None else f"status {ended.status}"
    length, parts = whole_parts(ended.output)
    if not whole.output.startswith(ended.output) or length != len(ended.output):
        return "no whole reports"
    at_hand = max(parts - 1, 0)
    if held not in allowed[at_hand : at_hand + 2]:
        return f"other tables than before and behind statement {at_hand + 1}"
    return None


def tried(program, statements, whole, allowed, environment, folder):
    """A run in an environment over a new file, which is then opened again: its end, and what is wrong with it."""
    path = f"{folder}/{os.getpid()}.db"
    ended = run(program, b"".join(statements), environment, path)
    again = run(program, b"SHOW;\n", path=path)
    flaw = strange(ended, again, pairs(path) if again.status == 0 else None, whole, allowed)
    for name in (path, f"{path}-wal", f"{path}-shm"):
        with contextlib.suppress(FileNotFoundError):
            os.remove(name)
    return ended, flaw
