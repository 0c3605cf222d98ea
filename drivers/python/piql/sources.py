"""Where the pairs of a whole store come from, at one moment: a file, or one revision of a cluster's store."""

import sqlite3
from collections.abc import Iterator
from typing import Any, NamedTuple, Protocol

from .errors import OperationalError
from .hosts.backend import Fault, Pair, Reading

# Above each key that an engine writes, and above each that it doesn't.
HIGHEST = b"\xff" * 16
PAGE = 1000
FORM = b"CREATE TABLE kv(k BLOB PRIMARY KEY, v BLOB NOT NULL)"
# What the database has, as SQLite tells it.
OBJECTS = {(b"table", b"kv", FORM), (b"index", b"sqlite_autoindex_kv_1", None)}
STRANGE = "SELECT CAST(k AS BLOB) FROM kv WHERE typeof(k) <> 'blob' OR typeof(v) <> 'blob' OR k >= ?"
RANGE = "SELECT k, CAST(v AS BLOB) FROM kv WHERE k >= ? AND k < ? ORDER BY k"


class Strange(NamedTuple):
    """What is wrong beneath the pairs: at a key, or in the whole file."""

    key: bytes
    what: str


class Source(Protocol):
    """Pairs that stand still."""

    def range(self, low: bytes, high: bytes) -> Iterator[Pair]:
        """The pairs with low <= key < high, in order, a few of them in memory at a time."""

    def strange(self) -> Iterator[Strange]:
        """What no pair shows."""


class FileSource:
    """An open file of SQLite, within one transaction that reads."""

    def __init__(self, file: sqlite3.Connection) -> None:
        self.file = file
        self.file.text_factory = bytes
        self.file.execute("BEGIN")

    def run(self, text: str, *values: object) -> Iterator[tuple[Any, ...]]:
        """The rows of a statement."""
        try:
            for row in self.file.execute(text, values):
                yield row
        except sqlite3.Error as error:
            raise OperationalError(f"the file can't be read: {error}") from error

    def range(self, low: bytes, high: bytes) -> Iterator[Pair]:
        for key, value in self.run(RANGE, low, high):
            yield key, value

    def strange(self) -> Iterator[Strange]:
        """What SQLite finds wrong, what else its file has, and pairs that are no bytes."""
        for (line,) in self.run("PRAGMA integrity_check(100)"):
            if line != b"ok":
                yield Strange(b"", f"SQLite: {line.decode(errors='replace')}")
        for found in self.run("SELECT type, name, sql FROM sqlite_master"):
            if found not in OBJECTS:
                yield Strange(b"", "the file has a table, an index, a view or a trigger that isn't the engine's")
        for (key,) in self.run(STRANGE, HIGHEST):
            yield Strange(key or b"", "no pair of bytes, or a key that no run writes")


class ReadingSource:
    """A revision of a cluster's store that is pinned."""

    def __init__(self, reading: Reading) -> None:
        self.reading = reading

    def range(self, low: bytes, high: bytes) -> Iterator[Pair]:
        while True:
            try:
                found = self.reading.range(low, high, PAGE)
            except Fault as fault:
                raise OperationalError(f"the store can't be read: {fault}") from fault
            yield from found
            if len(found) < PAGE:
                return
            low = found[-1][0] + b"\0"

    def strange(self) -> Iterator[Strange]:
        yield from ()


class Settled:
    """A source as the next opening makes it: with the changes of a write that was cut off."""

    def __init__(self, source: Source, changes: dict[bytes, bytes | None]) -> None:
        self.source, self.changes = source, changes

    def range(self, low: bytes, high: bytes) -> Iterator[Pair]:
        waiting = sorted(((key, new) for key, new in self.changes.items() if low <= key < high), reverse=True)
        for pair in self.source.range(low, high):
            while waiting and waiting[-1][0] < pair[0]:
                yield from put_pairs(*waiting.pop())
            if pair[0] not in self.changes:
                yield pair
        while waiting:
            yield from put_pairs(*waiting.pop())

    def strange(self) -> Iterator[Strange]:
        yield from self.source.strange()


def put_pairs(key: bytes, new: bytes | None) -> Iterator[Pair]:
    """The pair that a change leaves, if it leaves one."""
    if new is not None:
        yield key, new
