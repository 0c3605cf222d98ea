"""Rows from a CSV file into a table, with progress, the place of each refusal, and a start anew where it was stopped.

A record that can't be read is refused as one that the engine refuses is: its number and its line are told, and no value
of it, and the load goes on.
"""

import csv
import os
import time
import zlib
from collections.abc import Iterator, Sequence
from itertools import islice
from pathlib import Path
from typing import NamedTuple, TextIO

from .batch import batch_of_rows
from .cells import RowReader, Unreadable
from .connection import Connection
from .counting import counted
from .errors import DatabaseError, DataError, OperationalError, OtherRecords, ProgrammingError
from .marks import Mark
from .plain import plain_path
from .schema import Table
from .statements import Sent, read_statement
from .writes import WRITES

# How many rows are made as one at most. Each batch has one sync and one mark, so they are as many as it takes.
ROWS = WRITES
# How long, in seconds, nothing is told of the progress.
QUIET = 1.0


class Record(NamedTuple):
    """A record of a CSV file: its number, from 1 behind the head, the line on which it begins, and its cells."""

    number: int
    line: int
    cells: list[str]


# A record's row, or why it has none.
Row = str | Unreadable


class Loaded(NamedTuple):
    """How many records were taken, and how many of them refused."""

    records: int
    refused: int


def records_of(source: TextIO) -> Iterator[Record]:
    """The records of a CSV text that aren't empty; the head is number 0. Where the text is no CSV, nothing follows."""
    reader = csv.reader(source, strict=True)
    number, begins = 0, 1
    try:
        for cells in reader:
            if cells:
                yield Record(number, begins, cells)
                number += 1
            begins = reader.line_num + 1
    except csv.Error as error:
        raise OperationalError(f"record {number}, line {begins}: no CSV: {error}") from error
    except UnicodeError as error:
        raise OperationalError(f"record {number}, line {begins}: no UTF-8") from error


def sum_of(records: Sequence[Record], total: int) -> int:
    """The sum of some records, those that are no UTF-8 among them, behind the sum of those before them."""
    text = "".join(["\0".join(record.cells) for record in records])
    return zlib.crc32(text.encode(errors="surrogateescape"), total)


def lots_of(records: Iterator[Record]) -> Iterator[list[Record]]:
    """The records by as many as a lot has, at least one. Where one can't be read, those before it come first."""
    lot: list[Record] = []
    try:
        for record in records:
            lot.append(record)
            if len(lot) == ROWS:
                yield lot
                lot = []
    except OperationalError:
        if lot:
            yield lot
        raise
    if lot:
        yield lot


def rows_of(reader: RowReader, records: Sequence[Record]) -> Sequence[Row]:
    """The rows of some records. Where one can't be read, each half of them is read by itself."""
    try:
        return reader.rows([record.cells for record in records])
    except Unreadable as error:
        if len(records) == 1:
            return [error]
    half = len(records) // 2
    return [*rows_of(reader, records[:half]), *rows_of(reader, records[half:])]


def covered(found: Sequence[Row], rows: int) -> int:
    """How many of the first records have so many rows; all of them where there are no more."""
    places = [i for i, row in enumerate(found) if isinstance(row, str)]
    return places[rows] if rows < len(places) else len(found)


def outcomes(found: Sequence[Row], whys: Sequence[str | None]) -> list[str | None]:
    """Why each record is refused, or None: it can't be read, or what became of its row says so."""
    of_rows = iter(whys)
    return [next(of_rows) if isinstance(row, str) else str(row) for row in found]


class Load:
    """A load of one table. Rows are made by batches, each with one sync, and at most as many as were made before."""

    def __init__(self, connection: Connection, table: Table, mark: Mark, tell: TextIO) -> None:
        self.connection, self.mark, self.tell, self.told = connection, mark, tell, time.monotonic()
        places = ", ".join("?" * len(table.columns))
        self.insert = read_statement(f"INSERT INTO {table.name} VALUES ({places})").with_one_place()
        # How many rows the next batch may have, and how many a load sent that was stopped before it was told of them.
        self.most, self.greatest, self.sent = ROWS, ROWS, mark.sent

    def alone(self, row: str) -> DatabaseError | None:
        """Makes one row by itself; why not, or None."""
        try:
            self.connection.report(Sent(self.insert, "", (row,)))
        except DatabaseError as error:
            if error.number is None and not isinstance(error, DataError):
                raise
            return error
        return None

    def again(self, rows: list[str]) -> list[str | None]:
        """Makes rows that were sent as one before a stop. Where each of them has its key already, all were made."""
        errors = [self.alone(row) for row in rows]
        are_made = all(error is not None and error.number == "E503" for error in errors)
        return [None if are_made or error is None else str(error) for error in errors]

    def together(self, rows: list[str]) -> list[str | None]:
        """Makes the first rows as one; what became of them, or nothing where fewer are to be tried."""
        batch = batch_of_rows(self.insert, rows[: self.most])
        count = len(batch.fillings)
        self.mark.send(max(count, 1))
        if count < 2:
            # It may be too long for a batch, and even by itself.
            error = self.alone(rows[0])
            self.most = self.most if error else min(2, self.greatest)
            return [error and str(error)]
        try:
            self.connection.report(batch)
        except DatabaseError as error:
            self.most = self.fewer(count, error)
            return []
        self.most = min(2 * self.most, self.greatest)
        return [None] * count

    def fewer(self, rows: int, error: DatabaseError) -> int:
        """How many rows may be made as one where so many were refused."""
        if isinstance(error.place, int):
            return max(error.place - 1, 1)
        if error.number == "E512":
            return rows // 2
        if error.number != "E104":
            raise error
        # An engine whose language has no batches.
        self.greatest = 1
        return 1

    def too_few(self, there: int) -> OtherRecords:
        """The refusal of a text with so many records, fewer than were taken or sent of the one before."""
        counts = counted(self.mark.records + self.sent, "record")
        way = "give all of them again, or take the mark of another file away first"
        return OtherRecords(f"{self.mark.path} counts {counts}, and the text has {there}; {way}")

    def settle(self, records: Sequence[Record], found: Sequence[Row]) -> None:
        """Makes the rows that were found in some records, and tells of those that are refused."""
        while records:
            rows = [row for row in found if isinstance(row, str)]
            if len(rows) < self.sent:
                raise self.too_few(self.mark.records + len(rows))
            sent, self.sent = self.sent, 0
            whys = self.again(rows[:sent]) if sent else self.together(rows) if rows else []
            if whys or not rows:
                count = covered(found, len(whys))
                self.take(records[:count], outcomes(found[:count], whys))
                records, found = records[count:], found[count:]

    def take(self, records: Sequence[Record], whys: Sequence[str | None]) -> None:
        """Records are done; why each was refused, or None."""
        refused = [(record, why) for record, why in zip(records, whys) if why is not None]
        for record, why in refused:
            print(f"record {record.number}, line {record.line}: {why}", file=self.tell, flush=True)
        self.mark.take(len(records), len(refused), sum_of(records, self.mark.sum))
        self.progress()

    def progress(self, is_last: bool = False) -> None:
        """Tells how far it is, once in a while. What is told is synced."""
        now = time.monotonic()
        if is_last or now - self.told > QUIET:
            self.told = now
            print(f"{counted(self.mark.records, 'record')}, {self.mark.refused} refused", file=self.tell, flush=True)

    def pass_over(self, records: Iterator[Record]) -> None:
        """Passes over as many records as were taken. They have to be the ones that were."""
        count = total = 0
        for lot in lots_of(islice(records, self.mark.records)):
            count, total = count + len(lot), sum_of(lot, total)
        if count < self.mark.records:
            raise self.too_few(count)
        if total != self.mark.sum:
            raise OtherRecords(f"{self.mark.path} was left by the load of another file; take it away first")

    def run(self, reader: RowReader, records: Iterator[Record]) -> None:
        """Takes the records behind the mark."""
        self.mark.begin()
        self.pass_over(records)
        for lot in lots_of(records):
            self.settle(lot, rows_of(reader, lot))
        if self.sent:
            raise self.too_few(self.mark.records)
        self.progress(is_last=True)


def load(
    connection: Connection, table: str, source: TextIO, mark: str | os.PathLike[str], tell: TextIO, null: str = ""
) -> Loaded:
    """Inserts the rows of a CSV text, whose first line names the columns, and goes on where an earlier load stopped.

    The text is best read with errors="surrogateescape": a record that is no UTF-8 is then refused alone.
    """
    found = connection.refresh().tables().get(table.lower())
    if found is None:
        raise ProgrammingError(f"no table has the name {table}")
    kept, is_done = Mark(Path(plain_path(mark, "the mark"))), False
    try:
        records = records_of(source)
        head = next(records, Record(0, 1, []))
        Load(connection, found, kept, tell).run(RowReader(found, head.cells, null), records)
        is_done = True
    finally:
        kept.close(is_done)
    return Loaded(kept.records, kept.refused)
