"""The cells of a record as an INSERT writes the values of a row."""

from collections.abc import Callable, Iterable, Sequence
from itertools import repeat

from .errors import ProgrammingError
from .schema import Column, Table
from .scripts import SAFE_DIGITS, is_of_64_bits, plain_number
from .values import quoted, quoted_text

Reader = Callable[[str], str]
NULL = quoted(None)
TRUE, FALSE = quoted(True), quoted(False)
TRUTHS = {"true": TRUE, "t": TRUE, "1": TRUE, "false": FALSE, "f": FALSE, "0": FALSE}


class Unreadable(Exception):
    """A record that is no row of its table."""


def number_of(cell: str) -> str:
    """A decimal number of 64 bits."""
    digits = cell.removeprefix("-")
    if not (digits.isascii() and digits.isdecimal()):
        raise Unreadable("no decimal number")
    if not is_of_64_bits(cell):
        raise Unreadable("a number of more than 64 bits")
    return plain_number(cell)


def are_plain(cells: Sequence[str]) -> bool:
    """Whether each cell is a number above 0, just as an INSERT writes it, so that none has to be read by itself."""
    digits = "".join(cells)
    if not (digits.isascii() and digits.isdecimal()):
        return False
    # The least cell tells of all that none is empty or begins with a zero.
    return min(cells) >= "1" and max(map(len, cells)) <= SAFE_DIGITS


def truth_of(cell: str) -> str:
    """A truth value."""
    found = TRUTHS.get(cell.lower())
    if found is None:
        raise Unreadable("neither true nor false")
    return found


def text_of(cell: str) -> str:
    """A text. The bytes that are no UTF-8 come as halves of surrogate pairs."""
    try:
        cell.encode()
    except UnicodeEncodeError as error:
        raise Unreadable("no UTF-8") from error
    return quoted_text(cell)


READERS: dict[str, Reader] = {"INT": number_of, "BOOL": truth_of, "TEXT": text_of}


def reader_of(column: Column, null: str) -> Reader:
    """What reads the cells of a column, one that stands for NULL among them."""
    read = READERS[column.type]
    return (lambda cell: NULL if cell == null else read(cell)) if column.nullable else read


def columns_of(table: Table, head: Sequence[str]) -> list[Column]:
    """The table's columns in the order of the head, which has to name each one without NULL and without a default."""
    names = [name.strip().lower() for name in head]
    known = {column.name for column in table.columns}
    wrong = [place for place, name in enumerate(names, 1) if name not in known or names.count(name) > 1]
    lacking = [it.name for it in table.columns if not it.nullable and not it.is_added and it.name not in names]
    # A file without a head begins with a row, whose values aren't told.
    told = [f"its cells {wrong} name no column, or one twice"] if wrong else []
    told += [f"it lacks {', '.join(lacking)}"] if lacking else []
    if told:
        raise ProgrammingError(f"the first line has to name columns of {table.name}: {'; '.join(told)}")
    return [table.column(name) for name in names]


class RowReader:
    """Reads the cells behind a head as rows: each is the values between the parentheses of its INSERT."""

    def __init__(self, table: Table, head: Sequence[str], null: str) -> None:
        self.columns, self.null = columns_of(table, head), null
        self.readers = [reader_of(column, null) for column in self.columns]
        absent = [column for column in table.columns if column not in self.columns]
        self.defaults = [quoted(column.default) for column in absent]
        # For each column of the table, its place among those of the head and the absent ones behind them.
        self.order = [[*self.columns, *absent].index(column) for column in table.columns]

    def rows(self, records: Sequence[list[str]]) -> list[str]:
        """The rows of the cells of some records. One that can't be read refuses all of them."""
        width = len(self.columns)
        for cells in records:
            if len(cells) != width:
                raise Unreadable(f"{len(cells)} cells, and not {width}")
        values: list[Iterable[str]] = [self.read(place, cells) for place, cells in enumerate(zip(*records))]
        values += [repeat(default, len(records)) for default in self.defaults]
        return list(map(", ".join, zip(*[values[place] for place in self.order])))

    def read(self, place: int, cells: Sequence[str]) -> Sequence[str]:
        """The values of the cells of one column."""
        column = self.columns[place]
        has_null = column.nullable and self.null in cells
        if column.type == "INT" and not has_null and are_plain(cells):
            return cells
        try:
            return list(map(self.readers[place], cells))
        except Unreadable as error:
            raise Unreadable(f"column {column.name}: {error}") from error
