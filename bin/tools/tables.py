"""Tables in documents: their rows by the line with the names of their columns, and rows in the place of others."""

import re
from collections.abc import Callable
from typing import NamedTuple

Rows = list[list[str]]
BETWEEN = re.compile(r"(?<!\\)\|")
# A number as documents write it, but not the first one of a range as `1 to 1,000`.
NUMBER = re.compile(r"(?<![\w,])\d+(?:,\d{3})*(?!\w|,\d| to )")


class Lost(Exception):
    """A document has a table not just once."""


class Place(NamedTuple):
    """Where the rows of a table begin, and the line behind them, counted from 0."""

    begin: int
    end: int


def cells_of(line: str) -> list[str]:
    return [cell.strip() for cell in BETWEEN.split(line.strip()[1:-1])]


def line_of(cells: list[str]) -> str:
    return "|" + "|".join(f" {cell} " if cell else " " for cell in cells) + "|"


def place_of(lines: list[str], header: str) -> Place:
    """The place of the table whose first line is this one."""
    if lines.count(header) != 1:
        raise Lost(f"the table {header} stands there {lines.count(header)} times")
    begin = lines.index(header) + 2
    end = next((at for at in range(begin, len(lines)) if not lines[at].startswith("|")), len(lines))
    return Place(begin, end)


def rows_of(text: str, header: str) -> Rows:
    """The rows of the table, each as its cells."""
    lines = text.split("\n")
    begin, end = place_of(lines, header)
    return [cells_of(line) for line in lines[begin:end]]


def with_rows(text: str, header: str, change: Callable[[Rows], Rows]) -> str:
    """The document with what is made of the table's rows in their place."""
    lines = text.split("\n")
    begin, end = place_of(lines, header)
    changed = [line_of(cells) for cells in change([cells_of(line) for line in lines[begin:end]])]
    return "\n".join([*lines[:begin], *changed, *lines[end:]])


def with_numbers(cell: str, numbers: list[int]) -> str | None:
    """The cell with these numbers in place of its own: one for each, or one for all where they are equal."""
    own = len(NUMBER.findall(cell))
    wanted = list(dict.fromkeys(numbers)) if own == 1 else numbers
    if len(wanted) != own:
        return None
    left = iter(wanted)
    return NUMBER.sub(lambda _: f"{next(left):,}", cell)
