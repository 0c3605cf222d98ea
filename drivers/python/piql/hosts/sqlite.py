"""Pairs in a file of SQLite, in the table of the program piql_file, so that each opens what the other left."""

import contextlib
import sqlite3
from collections.abc import Sequence

from .backend import INTENT, UNSETTLED, Backend, Change, Fault, Guard, Held, Pair

TABLE = "CREATE TABLE IF NOT EXISTS kv(k BLOB PRIMARY KEY, v BLOB NOT NULL)"
LOCKED = (sqlite3.SQLITE_BUSY, sqlite3.SQLITE_LOCKED)


class SqliteStore(Backend):
    """A file, which is locked from `begin` to `close`. Each write is a transaction that waits for the disk."""

    def __init__(self, path: str) -> None:
        self.path = path
        self.file: sqlite3.Connection | None = None

    def begin(self) -> None:
        """Opens the file and takes its lock."""
        if self.file is not None:
            return
        file = sqlite3.connect(self.path, isolation_level=None, timeout=0)
        try:
            for text in ("PRAGMA locking_mode = EXCLUSIVE", "PRAGMA journal_mode = WAL", "PRAGMA synchronous = FULL"):
                file.execute(text)
            for text in ("BEGIN EXCLUSIVE", TABLE, "COMMIT"):
                file.execute(text)
        except sqlite3.Error as error:
            file.close()
            raise (Held if error.sqlite_errorcode in LOCKED else Fault)(f"{self.path}: {error}") from error
        self.file = file

    def run(self, text: str, *values: object) -> sqlite3.Cursor:
        """Runs one statement, which is a transaction."""
        if self.file is None:
            raise Fault(f"{self.path} isn't open")
        try:
            return self.file.execute(text, values)
        except sqlite3.Error as error:
            raise Fault(f"{self.path}: {error}") from error

    def get(self, key: bytes) -> bytes | None:
        row = self.run("SELECT v FROM kv WHERE k = ?", key).fetchone()
        return row[0] if row else None

    def range(self, low: bytes, high: bytes, limit: int) -> list[Pair]:
        return self.run("SELECT k, v FROM kv WHERE k >= ? AND k < ? ORDER BY k LIMIT ?", low, high, limit).fetchall()

    def count(self, low: bytes, high: bytes, cap: int) -> int:
        few = "SELECT 1 FROM kv WHERE k >= ? AND k < ? LIMIT ?"
        return int(self.run(f"SELECT count(*) FROM ({few})", low, high, cap).fetchone()[0])

    def write(self, key: bytes, guard: Guard, held: bytes, new: bytes | None) -> bool:
        if new is None and guard is Guard.ABSENT:
            return self.get(key) is None
        done = self.changed(key, guard, held, new).rowcount
        return guard is Guard.ANY or done == 1

    def changed(self, key: bytes, guard: Guard, held: bytes, new: bytes | None) -> sqlite3.Cursor:
        """The one statement that changes a pair."""
        same = (" AND v = ?", (held,)) if guard is Guard.IS else ("", ())
        if new is None:
            return self.run("DELETE FROM kv WHERE k = ?" + same[0], key, *same[1])
        if guard is Guard.IS:
            return self.run("UPDATE kv SET v = ? WHERE k = ?" + same[0], new, key, *same[1])
        way = "NOTHING" if guard is Guard.ABSENT else "UPDATE SET v = excluded.v"
        return self.run(f"INSERT INTO kv VALUES (?, ?) ON CONFLICT (k) DO {way}", key, new)

    def commit(self, intent: bytes, changes: Sequence[Change]) -> None:
        self.run("BEGIN IMMEDIATE")
        try:
            if self.get(INTENT) is not None:
                raise Fault(UNSETTLED)
            for key, new in changes:
                self.changed(key, Guard.ANY, b"", new)
            self.run("COMMIT")
        except BaseException:
            with contextlib.suppress(Fault):
                self.run("ROLLBACK")
            raise

    def close(self) -> None:
        """Closes the file, whose log is then in it."""
        if self.file is not None:
            with contextlib.suppress(sqlite3.Error):
                self.file.close()
        self.file = None
