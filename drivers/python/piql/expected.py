"""What the rows of a store ask of its other pairs, kept in a temporary file of SQLite, and in memory a little of it."""

import sqlite3
from collections.abc import Iterator

from .hosts.backend import Pair
from .keycodes import key_code
from .layout import TableLayout, cells
from .reports import Row
from .stored import ENTRIES, GROUPS, ROWS

TABLES = (
    "PRAGMA journal_mode = OFF",
    "PRAGMA synchronous = OFF",
    "CREATE TABLE entries(k BLOB)",
    "CREATE TABLE groups(k BLOB)",
    "CREATE TABLE limited(g BLOB, k BLOB, most INT)",
    "CREATE TABLE parents(p BLOB, k BLOB, n INT)",
    "BEGIN",
)
LOTS = {
    "entries": "INSERT INTO entries VALUES (?)",
    "groups": "INSERT INTO groups VALUES (?)",
    "limited": "INSERT INTO limited VALUES (?, ?, ?)",
    "parents": "INSERT INTO parents VALUES (?, ?, ?)",
}
OVERFULL = "SELECT min(k), g, count(*), most FROM limited GROUP BY g HAVING count(*) > most ORDER BY min(k)"


def row_key(table: int, code: bytes) -> bytes:
    """The key of a row whose primary key has this code."""
    return bytes([ROWS, table]) + code


class Expected:
    """The entries, the numbers of groups, the rows of limits and the parents that rows ask for."""

    def __init__(self) -> None:
        # Without a name SQLite makes a file in the folder for temporary ones, which ends with the connection.
        self.file = sqlite3.connect("", isolation_level=None)
        for text in TABLES:
            self.file.execute(text)

    def add(self, table: TableLayout, key: bytes, row: Row) -> None:
        """Adds what one row asks for."""
        for index in table.indexes:
            code = key_code(cells(row, index.places), index.descends)
            self.put("entries", bytes([ENTRIES, table.number, index.number]) + code)
        for count in table.counts:
            if None not in (values := cells(row, count.places)):
                self.put("groups", bytes([GROUPS]) + count.number.to_bytes(2) + key_code(values))
        for number, limit in enumerate(table.limits, 1):
            if None not in (values := cells(row, limit.places)):
                self.put("limited", bytes([table.number, number]) + key_code(values), key, limit.most)
        for number, reference in enumerate(table.references, 1):
            if None not in (values := cells(row, reference.places)):
                self.put("parents", row_key(reference.table, key_code(values)), key, number)

    def put(self, name: str, *values: object) -> None:
        """Keeps what a row asks for."""
        self.file.execute(LOTS[name], values)

    def entries(self) -> Iterator[Pair]:
        """The pairs of all entries, in order."""
        for (key,) in self.file.execute("SELECT k FROM entries ORDER BY k"):
            yield key, b""

    def groups(self) -> Iterator[Pair]:
        """The pairs of all groups, in order."""
        for key, rows in self.file.execute("SELECT k, count(*) FROM groups GROUP BY k ORDER BY k"):
            yield key, rows.to_bytes(8)

    def overfull(self) -> Iterator[tuple[bytes, int, int, int]]:
        """The first row of each group that has more rows than its limit; the limit's number, the rows, the most."""
        for key, group, rows, most in self.file.execute(OVERFULL):
            yield key, group[1], rows, most

    def parents(self) -> Iterator[tuple[bytes, bytes, int]]:
        """The keys of rows that others refer to, in order, with the key of the one that does and its foreign key."""
        yield from self.file.execute("SELECT p, k, n FROM parents ORDER BY p, k")

    def close(self) -> None:
        """Takes the file away."""
        self.file.close()
