"""Batches whose changes have just as many bytes as they may, and one more."""

from collections.abc import Iterator
from typing import NamedTuple

from piql.reports import Row

from effects import Rows, made, no_rows
from layouts import Tables, tables_of
from statements import LONGEST_CHANGES, Statement, changes_length
from writes import Delete, Insert, Set, Update, Write

COLUMNS = "a TEXT(1000), b TEXT(1000), c TEXT(1000), d TEXT(1000), e TEXT(1000)"
PLAIN = tables_of([f"CREATE TABLE big (id INT, {COLUMNS}, PRIMARY KEY (id));"])
# Each UPDATE of the last column changes the row's pair, two entries and the numbers of two groups.
KEPT = tables_of(
    [
        f"CREATE TABLE big (id INT, {COLUMNS}, PRIMARY KEY (id), CARDINALITY LIMIT 300 (e));",
        "CREATE COUNTER of_e OF big (e);",
    ]
)
# The texts of a row of 4,096 bytes, and the place of the one that no write changes.
LONGEST, UNCHANGED = (1000, 1000, 1000, 1000, 77), 1
ROWS = 255


class Case(NamedTuple):
    """A batch over rows, and how many bytes its changes have."""

    name: str
    tables: Tables
    rows: Rows
    statement: Statement
    length: int


def full_row(key: int) -> Row:
    return (key, *(letter * length for letter, length in zip("abcde", LONGEST)))


def where(key: int) -> tuple[tuple[str, int], ...]:
    return (("id", key),)


def update(key: int, letter: str = "f") -> Update:
    """Another text in the last column, as long as the one that is there."""
    return Update("big", where(key), (Set("e", letter * LONGEST[-1]),))


def updates(count: int) -> tuple[Write, ...]:
    return tuple(map(update, range(1, count + 1)))


def states(tables: Tables, rows: Rows, writes: tuple[Write, ...]) -> list[Rows]:
    """The rows before the writes and behind each of them."""
    found = [rows]
    for write in writes:
        found.append(made(tables, found[-1], write))
    return found


def shortened(rows: Rows, bytes_less: int, keys: range) -> Rows:
    """The rows with so many bytes less in texts that no write changes."""
    there = dict(rows["big"])
    for key in keys:
        cut = min(bytes_less, LONGEST[0])
        row = list(there[key,])
        row[UNCHANGED] = "a" * (LONGEST[0] - cut)
        there[key,] = tuple(row)
        bytes_less -= cut
    if bytes_less:
        raise ValueError("the rows have too few bytes")
    return rows | {"big": there}


def sized(name: str, tables: Tables, writes: tuple[Write, ...], keys: range, length: int) -> Case:
    """A batch over rows of which those with these keys are shortened until its changes have so many bytes."""
    rows = no_rows(tables) | {"big": {(key,): full_row(key) for key in range(1, ROWS + 1)}}
    more = changes_length(tables, states(tables, rows, writes), writes) - length
    fitting = shortened(rows, more, keys)
    if changes_length(tables, states(tables, fitting, writes), writes) != length:
        raise ValueError("another length than was asked for")
    return Case(name, tables, fitting, Statement(writes), length)


def cases() -> Iterator[Case]:
    gone = ROWS + 1
    passing = (Insert("big", full_row(gone)), Delete("big", where(gone)))
    batches: list[tuple[str, Tables, tuple[Write, ...], range]] = [
        ("a row each", PLAIN, updates(ROWS), range(1, ROWS + 1)),
        ("a row twice", PLAIN, (*updates(ROWS), update(ROWS, "g")), range(1, ROWS)),
        ("a row that comes and goes", KEPT, (*updates(ROWS - 1), *passing), range(1, ROWS)),
    ]
    for name, tables, writes, keys in batches:
        for length in (LONGEST_CHANGES, LONGEST_CHANGES + 1):
            yield sized(name, tables, writes, keys, length)

