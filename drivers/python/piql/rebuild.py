"""A new store with the rows of an old one under another schema: the one way to drop or to change a definition.

The old file is held from before its first row is read until the new one has its name, so no row is written meanwhile.
"""

import os
import sqlite3
import time
from collections.abc import Mapping
from typing import NamedTuple, TextIO

from .backup import PART
from .connection import Connection
from .counting import counted
from .errors import DatabaseError, OperationalError, ProgrammingError
from .filling import filled
from .holding import held
from .links import FileLink
from .load import QUIET
from .migrate import migrate
from .private import folder_beside, put_in_place
from .replacing import replace, take_rights
from .reports import Value
from .schema import Schema, Table
from .stored import opened_held, read_stored_schema, stored_rows
from .targets import check_files

Program = str | os.PathLike[str] | None
# The values of columns that the old table lacks, by table and column. An added column else has its default.
Values = Mapping[tuple[str, str], Value]


class Rebuilt(NamedTuple):
    """How many rows were taken over, and how many were refused."""

    rows: int
    refused: int


class Source(NamedTuple):
    """Where a column of the new table has its values from: a place in the old rows, or one value."""

    place: int | None
    value: Value


def sources_of(old: Table, new: Table, values: Values) -> list[Source]:
    """One source for each column of the new table."""
    places = {column.name: place for place, column in enumerate(old.columns)}
    lacking = [it.name for it in new.columns if it.name not in places and not it.nullable and not it.is_added]
    unknown = [name for name in lacking if (new.name, name) not in values]
    if unknown:
        way = f"give --value {new.name}.{unknown[0]}=.."
        raise ProgrammingError(f"the old {new.name} has no {', '.join(unknown)}: {way}")
    return [Source(places.get(it.name), values.get((new.name, it.name), it.default)) for it in new.columns]


def tell_losses(old: Schema, new: Schema, tell: TextIO) -> None:
    """Tells which tables, columns and counters are left out."""
    kept = new.tables()
    for name, table in old.tables().items():
        if name not in kept:
            print(f"table {name} is left out", file=tell)
            continue
        for column in table.columns:
            if column.name not in {it.name for it in kept[name].columns}:
                print(f"column {name}.{column.name} is left out", file=tell)
    for name in old.counters():
        if name not in new.counters():
            print(f"counter {name} is left out", file=tell)


class Copying:
    """Rows on their way from an old file to a new store."""

    def __init__(self, file: sqlite3.Connection, connection: Connection, tell: TextIO) -> None:
        self.file, self.connection, self.tell = file, connection, tell
        self.rows, self.refused, self.told = 0, 0, time.monotonic()

    def copy_table(self, number: int, old: Table, new: Table, sources: list[Source]) -> None:
        """Inserts the rows of one table."""
        insert = f"INSERT INTO {new.name} VALUES ({', '.join('?' * len(sources))})"
        for place, row in enumerate(stored_rows(self.file, number, old.columns), 1):
            values = [it.value if it.place is None else row[it.place] for it in sources]
            self.copy_row(insert, values, f"{old.name}, row {place}")

    def copy_row(self, insert: str, values: list[Value], name: str) -> None:
        """Inserts a row; one that is refused is told by its table and its place in the order of the keys."""
        try:
            self.connection.execute(insert, values)
            self.rows += 1
        except DatabaseError as error:
            if error.number is None:
                raise
            self.refused += 1
            print(f"{name}: {error}", file=self.tell)
        if time.monotonic() - self.told > QUIET:
            self.told = time.monotonic()
            print(f"{counted(self.rows, 'row')}, {self.refused} refused", file=self.tell, flush=True)


def copy_rows(file: sqlite3.Connection, connection: Connection, values: Values, tell: TextIO) -> Rebuilt:
    """Inserts the rows of all tables that both stores have, parents before those that refer to them."""
    old, new = read_stored_schema(file), connection.schema()
    numbers = {name: number for number, name in enumerate(old.tables(), 1)}
    shared = [(table, old.tables()[name]) for name, table in new.tables().items() if name in numbers]
    planned = [(after, before, sources_of(before, after, values)) for after, before in shared]
    tell_losses(old, new, tell)
    copying = Copying(file, connection, tell)
    for after, before, sources in planned:
        copying.copy_table(numbers[before.name], before, after, sources)
    print(f"{counted(copying.rows, 'row')}, {copying.refused} refused", file=tell)
    return Rebuilt(copying.rows, copying.refused)


def make(
    old: str, part: str, schema: str | os.PathLike[str], tell: TextIO, values: Values, program: Program
) -> Rebuilt:
    """Makes a new file from the rows of one that is held, with its rights."""
    with filled(part, program) as connection, opened_held(old) as file:
        migrate(connection, schema, program=program, out=tell)
        done = copy_rows(file, connection, values, tell)
    take_rights(part, old)
    return done


def rebuild(
    old: str, new: str | None, schema: str | os.PathLike[str], tell: TextIO, values: Values, program: Program = None
) -> Rebuilt:
    """Makes the file `new`, which may not be there yet, from the rows of the file `old` and from a schema.

    Where `new` is None, the new file takes the place of the old one, whose name from then on is told.
    """
    check_files(old, new)
    if not os.path.exists(old) or new is not None and os.path.lexists(new):
        raise OperationalError(f"{old} has to be there, and {new} may not")
    # An opening settles what a run that was cut off left, and its end brings all into the one file.
    FileLink(old, program, 5.0).close()
    try:
        with held(old), folder_beside(new or old) as folder:
            part = os.path.join(folder, PART)
            done = make(old, part, schema, tell, values, program)
            if new is not None:
                put_in_place(part, new)
            else:
                print(f"what was {old} is {replace(part, old)}", file=tell)
    except OSError as error:
        raise OperationalError(f"{old} can't be rebuilt: {error}") from error
    return done
