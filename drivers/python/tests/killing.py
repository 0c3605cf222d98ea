"""Work that is killed before each of its calls of the operating system that change names or wait for a disk."""

import os
import shutil
import sqlite3
from collections.abc import Callable, Iterator
from pathlib import Path

CALLS = ("chmod", "fchmod", "fsync", "link", "mkdir", "open", "rename", "rmdir", "unlink")
KILLED = 9


def count_calls(step: int) -> None:
    """Has this process end without a word before the call of this number, from 1."""
    done = [0]

    def counted(call: Callable[..., object]) -> Callable[..., object]:
        def counting(*words: object, **more: object) -> object:
            done[0] += 1
            if done[0] == step:
                os._exit(KILLED)
            return call(*words, **more)

        return counting

    for name in CALLS:
        setattr(os, name, counted(getattr(os, name)))


def is_killed(step: int, work: Callable[[], object]) -> bool:
    """Does the work in a child that is killed before the call of this number; False where it has no such call."""
    child = os.fork()
    if child == 0:
        count_calls(step)
        try:
            work()
            os._exit(0)
        except BaseException:
            os._exit(1)
    status = os.waitstatus_to_exitcode(os.waitpid(child, 0)[1])
    assert status in (0, KILLED), f"the work ended with {status} at its call {step}"
    return status == KILLED


def each_kill(work: Callable[[], object]) -> Iterator[int]:
    """Kills the work at its first call, at its second and so on, until one is whole. The caller makes all anew."""
    step = 1
    while is_killed(step, work):
        yield step
        step += 1


def make_store(path: Path, folded: dict[bytes, bytes], logged: dict[bytes, bytes]) -> None:
    """A file as an engine that was killed left it: some of its pairs stand in the log alone."""
    made = path.with_name("made")
    file = sqlite3.connect(made)
    for text in ("PRAGMA journal_mode = wal", "CREATE TABLE kv(k BLOB PRIMARY KEY, v BLOB NOT NULL)"):
        file.execute(text)
    put(file, folded)
    file.execute("PRAGMA wal_checkpoint(TRUNCATE)")
    put(file, logged)
    for ending in ("", "-wal") if logged else ("",):
        shutil.copyfile(f"{made}{ending}", f"{path}{ending}")
    file.close()
    made.unlink()


def put(file: sqlite3.Connection, pairs: dict[bytes, bytes]) -> None:
    """Puts pairs into an open file."""
    file.executemany("INSERT INTO kv VALUES (?, ?)", pairs.items())
    file.commit()


def pairs_of(path: Path | str, folder: Path) -> dict[bytes, bytes]:
    """The pairs of a file with its log, of which a copy is read."""
    copy = folder / "read"
    for ending in ("", "-wal"):
        if os.path.exists(f"{path}{ending}"):
            shutil.copyfile(f"{path}{ending}", f"{copy}{ending}")
    file = sqlite3.connect(copy)
    try:
        return dict(file.execute("SELECT k, v FROM kv"))
    finally:
        file.close()
        for ending in ("", "-wal", "-shm"):
            Path(f"{copy}{ending}").unlink(missing_ok=True)


def fold(path: str, program: str) -> None:
    """Brings the log of a file into it, as an engine does that opens and closes it."""
    file = sqlite3.connect(path)
    file.execute("SELECT count(*) FROM kv").fetchone()
    file.close()
