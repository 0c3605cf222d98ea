"""The rows of a store's file, read by the bytes that docs/FORMATS.md gives, while no run is on."""

import contextlib
import os
import sqlite3
from collections.abc import Iterable, Iterator
from pathlib import Path
from typing import NamedTuple

from .errors import InternalError, OperationalError
from .holding import IN_USE
from .reports import DefinitionLine, Row
from .rowcodes import read_row
from .schema import Column, Schema, read_schema

DEFINITIONS, ROWS, ENTRIES, INTENT, GROUPS = 1, 2, 3, 4, 5
# The format of a definition's pair, by what its text begins with; and its mark behind that.
FORMATS = {b"CREATE TABLE ": 1, b"CREATE COUNTER ": 2, b"PREPARE ": 1, b"ALTER TABLE ": 2}
READY, FILLING = 0, 1
# No log with a page in it is shorter: its head, a page's head and the least page.
LEAST_LOG = 32 + 24 + 512
# For how many seconds a file is tried that somebody has.
WAIT = 5.0


class StoredDefinition(NamedTuple):
    """A definition as its pair has it: its canonical text, and whether the index that it may have made is filled."""

    text: str
    is_ready: bool


def open_file(path: str, how: str = "mode=ro") -> sqlite3.Connection:
    """The file for reading alone."""
    try:
        file = sqlite3.connect(f"{Path(path).absolute().as_uri()}?{how}", uri=True, timeout=WAIT)
    except sqlite3.Error as error:
        raise OperationalError(f"{path} can't be read: {error}") from error
    try:
        file.execute("SELECT k, v FROM kv LIMIT 1").fetchone()
    except sqlite3.Error as error:
        file.close()
        is_locked = error.sqlite_errorcode == sqlite3.SQLITE_BUSY
        raise OperationalError(IN_USE.format(path=path) if is_locked else f"{path} can't be read: {error}") from error
    return file


@contextlib.contextmanager
def opened(path: str) -> Iterator[sqlite3.Connection]:
    """The same for a while. SQLite's own file for readers beside the log, which it would leave, is taken away."""
    beside = path + "-shm"
    was_there = os.path.exists(beside)
    file = open_file(path)
    try:
        yield file
    finally:
        file.close()
        if not was_there:
            with contextlib.suppress(FileNotFoundError):
                os.remove(beside)


@contextlib.contextmanager
def opened_held(path: str) -> Iterator[sqlite3.Connection]:
    """A file that this process holds (holding.py) and whose log is empty, for a while: SQLite takes no lock."""
    log = os.path.realpath(path) + "-wal"
    if os.path.exists(log) and os.path.getsize(log) >= LEAST_LOG:
        raise OperationalError(f"somebody wrote to {path} just now; try again")
    with contextlib.closing(open_file(path, "immutable=1")) as file:
        yield file


def pairs(file: sqlite3.Connection, first: int, *after: int) -> Iterator[tuple[bytes, bytes]]:
    """The pairs whose key begins with these bytes, of which the last is below 255, in order."""
    low = bytes([first, *after])
    high = low[:-1] + bytes([low[-1] + 1])
    try:
        for pair in file.execute("SELECT k, CAST(v AS BLOB) FROM kv WHERE k >= ? AND k < ? ORDER BY k", (low, high)):
            yield pair
    except sqlite3.Error as error:
        raise OperationalError(f"the file can't be read: {error}") from error


def format_of(text: bytes) -> int | None:
    """The format of a definition of this text."""
    return next((number for head, number in FORMATS.items() if text.startswith(head)), None)


def check_formats(file: sqlite3.Connection) -> None:
    """Refuses definitions that this version doesn't know."""
    for key, value in pairs(file, DEFINITIONS):
        if value[:1] != bytes([format_of(value[2:]) or 0]):
            raise OperationalError(f"definition {int.from_bytes(key[1:])} was written by a later version")


def read_stored_schema(file: sqlite3.Connection) -> Schema:
    """The definitions. A value begins with its format and its mark."""
    try:
        found = [DefinitionLine(int.from_bytes(k[1:]), v[2:].decode()) for k, v in pairs(file, DEFINITIONS)]
        return read_schema(found)
    # What reading does at a text that is not canonical.
    except (LookupError, RuntimeError, StopIteration, ValueError) as error:
        raise InternalError("a definition has a text that no run writes") from error


def stored_definitions(found: Iterable[tuple[bytes, bytes]]) -> list[StoredDefinition]:
    """The definitions of the catalog's pairs. A value begins with its format and its mark."""
    return [StoredDefinition(it[2:].decode(errors="replace"), it[1:2] != bytes([FILLING])) for _, it in found]


def stored_rows(file: sqlite3.Connection, number: int, columns: tuple[Column, ...]) -> Iterator[Row]:
    """The rows of the table of this number, from 1, in the order of their keys."""
    for _, code in pairs(file, ROWS, number):
        yield read_row(columns, code)
