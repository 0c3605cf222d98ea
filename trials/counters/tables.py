"""Two tables with counters: their definitions, writes drawn at random, what these make of the rows, and the counts."""

import itertools
import random
from collections.abc import Iterator
from typing import NamedTuple

from piql.reports import Row, Value
from piql.values import quoted

DEFINITIONS = """\
CREATE TABLE people (id INT, town TEXT(8) NULL, ok BOOL, PRIMARY KEY (id));
CREATE TABLE likes (fan INT, post INT, kind TEXT(4) NULL, note INT NULL, PRIMARY KEY (fan, post),
  CARDINALITY LIMIT 5 (post), FOREIGN KEY (fan) REFERENCES people);
CREATE COUNTER of_town OF people (town);
CREATE COUNTER of_ok OF people (ok, town);
CREATE COUNTER liked OF likes (post);
ALTER TABLE people ADD COLUMN age INT NULL DEFAULT 0;
CREATE COUNTER of_kind OF likes (kind, post);
CREATE COUNTER of_fan OF likes (fan);
CREATE COUNTER of_age OF people (age);
PREPARE all_people AS SELECT * FROM people LIMIT 100;
PREPARE all_likes AS SELECT * FROM likes LIMIT 100;
"""
PEOPLE, LIKES = "people", "likes"
COLUMNS = {PEOPLE: ("id", "town", "ok", "age"), LIKES: ("fan", "post", "kind", "note")}
# How many columns the key of a table has, which are its first ones.
KEYS = {PEOPLE: 1, LIKES: 2}
LIMIT = 5
# The values that are drawn for a column. Some are of no group, and some of a text's end: a byte of 0 in it, or none.
VALUES: dict[str, tuple[Value, ...]] = {
    "id": tuple(range(7)),
    "town": (None, "", "a", "a\0b", "b"),
    "ok": (False, True),
    "age": (None, 0, -1),
    "fan": tuple(range(7)),
    "post": (-9, 0, 8),
    "kind": (None, "x", "yy"),
    "note": (None, 3),
}


class Counter(NamedTuple):
    """A counter: the number of its definition, its table and its columns."""

    number: int
    table: str
    columns: tuple[str, ...]


COUNTERS = {
    "of_town": Counter(3, PEOPLE, ("town",)),
    "of_ok": Counter(4, PEOPLE, ("ok", "town")),
    "liked": Counter(5, LIKES, ("post",)),
    "of_kind": Counter(7, LIKES, ("kind", "post")),
    "of_fan": Counter(8, LIKES, ("fan",)),
    "of_age": Counter(9, PEOPLE, ("age",)),
}
# The rows of each table by their keys.
Rows = dict[str, dict[Row, Row]]


class Group(NamedTuple):
    """A group of a counter."""

    counter: str
    values: Row


class Write(NamedTuple):
    """A write: a row that comes, one that goes, or one of which columns are set."""

    table: str
    key: Row
    row: Row | None = None
    sets: tuple[tuple[str, Value], ...] = ()

    def text(self) -> str:
        """The statement."""
        if self.row is not None:
            return f"INSERT INTO {self.table} VALUES ({', '.join(map(quoted, self.row))});"
        pairs = zip(COLUMNS[self.table], self.key)
        where = " AND ".join(f"{column} = {quoted(value)}" for column, value in pairs)
        if not self.sets:
            return f"DELETE FROM {self.table} WHERE {where};"
        sets = ", ".join(f"{column} = {quoted(value)}" for column, value in self.sets)
        return f"UPDATE {self.table} SET {sets} WHERE {where};"


class Batch(NamedTuple):
    """Writes that are made as one."""

    writes: tuple[Write, ...]

    def text(self) -> str:
        """The statement."""
        return f"BATCH {', '.join(write.text().removesuffix(';') for write in self.writes)};"


Statement = Write | Batch
# How many writes a batch has at most, and how often one is drawn.
WRITES, BATCHES = 6, 0.4


def no_rows() -> Rows:
    return {PEOPLE: {}, LIKES: {}}


def drawn(chance: random.Random, rows: Rows) -> Write:
    """A write. It is mostly of a row that is there, where there are many."""
    table = chance.choice((PEOPLE, LIKES, LIKES))
    columns, size = COLUMNS[table], KEYS[table]
    row = tuple(chance.choice(VALUES[column]) for column in columns)
    there = rows[table]
    if chance.random() < 0.45 or not there:
        return Write(table, row[:size], row)
    key = chance.choice(sorted(there)) if chance.random() < 0.9 else row[:size]
    if chance.random() < 0.4:
        return Write(table, key)
    places = sorted(chance.sample(range(size, len(columns)), chance.randint(1, len(columns) - size)))
    return Write(table, key, None, tuple((columns[place], row[place]) for place in places))


def drawn_statement(chance: random.Random, rows: Rows) -> Statement:
    """A write, or a batch of which each write is drawn from the rows of those before it, as far as they are made."""
    if chance.random() >= BATCHES:
        return drawn(chance, rows)
    writes: list[Write] = []
    for _ in range(chance.randint(1, WRITES)):
        writes.append(drawn(chance, rows))
        rows = rows if refusal_of(rows, writes[-1]) else made(rows, writes[-1])
    return Batch(tuple(writes))


def without(rows: Rows, table: str, key: Row) -> Rows:
    return rows | {table: {other: row for other, row in rows[table].items() if other != key}}


def with_row(rows: Rows, table: str, key: Row, row: Row) -> Rows:
    return rows | {table: rows[table] | {key: row}}


def refusal_of(rows: Rows, write: Write) -> str | None:
    """What a write is refused for, by the rules."""
    is_there = write.key in rows[write.table]
    if write.row is None:
        if not is_there:
            return "E504"
        is_parent = write.table == PEOPLE and not write.sets and any(key[0] == write.key[0] for key in rows[LIKES])
        return "E506" if is_parent else None
    if is_there:
        return "E503"
    if write.table == LIKES and write.key[:1] not in rows[PEOPLE]:
        return "E505"
    is_full = write.table == LIKES and sum(key[1] == write.key[1] for key in rows[LIKES]) >= LIMIT
    return "E507" if is_full else None


def made(rows: Rows, write: Write) -> Rows:
    """The rows behind a write that isn't refused."""
    if write.row is not None:
        return with_row(rows, write.table, write.key, write.row)
    if not write.sets:
        return without(rows, write.table, write.key)
    given = dict(zip(COLUMNS[write.table], rows[write.table][write.key])) | dict(write.sets)
    return with_row(rows, write.table, write.key, tuple(given[column] for column in COLUMNS[write.table]))


def refused_as(rows: Rows, statement: Statement) -> tuple[str, ...]:
    """What a statement is refused for, as its report begins: of a batch its first write that is refused."""
    if isinstance(statement, Write):
        code = refusal_of(rows, statement)
        return (code,) if code else ()
    for place, write in enumerate(statement.writes, 1):
        if code := refusal_of(rows, write):
            return ("E513", str(place), code)
        rows = made(rows, write)
    return ()


def made_by(rows: Rows, statement: Statement) -> Rows:
    """The rows behind a statement that isn't refused."""
    for write in statement.writes if isinstance(statement, Batch) else (statement,):
        rows = made(rows, write)
    return rows


def groups() -> Iterator[Group]:
    """Each group of each counter, also those that no row is in."""
    for name, counter in COUNTERS.items():
        lists = [[value for value in VALUES[column] if value is not None] for column in counter.columns]
        yield from (Group(name, values) for values in itertools.product(*lists))


def number_of(rows: Rows, group: Group) -> int:
    """How many rows a group has, counted from the rows."""
    counter = COUNTERS[group.counter]
    places = [COLUMNS[counter.table].index(column) for column in counter.columns]
    return sum(tuple(row[place] for place in places) == group.values for row in rows[counter.table].values())
