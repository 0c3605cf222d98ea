"""Tables with all that a write has to keep, and writes on them that are drawn at random."""

import random

from piql.layout import TableLayout
from piql.reports import Row, Value

from comparing import COMPARISONS, GREATEST, LEAST
from effects import Rows, made, refused
from layouts import Made, tables_of
from statements import Statement
from writes import Cond, Delete, Insert, Set, Update, Write, add

TABLES = tables_of(
    (
        "CREATE TABLE towns (name TEXT(8), open BOOL, size INT NULL, PRIMARY KEY (name));",
        "CREATE TABLE people (id INT, town TEXT(8) NULL, ok BOOL NULL, age INT NULL, PRIMARY KEY (id), "
        "CARDINALITY LIMIT 3 (town), CARDINALITY LIMIT 2 (ok, age), FOREIGN KEY (town) REFERENCES towns);",
        "CREATE TABLE likes (fan INT, post INT, kind TEXT(4) NULL, n INT, PRIMARY KEY (fan, post), "
        "CARDINALITY LIMIT 3 (post, kind), FOREIGN KEY (fan) REFERENCES people, FOREIGN KEY (kind) REFERENCES towns);",
        "CREATE COUNTER of_town OF people (town);",
        "CREATE COUNTER of_kind OF likes (kind, post);",
        "CREATE COUNTER of_n OF likes (n);",
        "ALTER TABLE people ADD COLUMN note TEXT(20) NULL DEFAULT 'x';",
        "ALTER TABLE likes ADD COLUMN w INT NULL DEFAULT 5;",
        "PREPARE oldest AS SELECT p.id FROM people AS p ORDER BY p.age DESC LIMIT 5;",
        "PREPARE of_w AS SELECT l.fan FROM likes AS l WHERE l.w = [1] ORDER BY l.n DESC LIMIT 5;",
    ),
    (Made("people", (("age", True),)), Made("likes", (("w", False), ("n", True)))),
)
NUMBERS: tuple[Value, ...] = (LEAST, -1, 0, 1, GREATEST)
# The values that are drawn for a column.
VALUES: dict[str, tuple[Value, ...]] = {
    "name": ("", "a", "a\0b", "é"),
    "open": (False, True),
    "size": (None, *NUMBERS),
    "id": tuple(range(6)),
    "town": (None, "", "a", "a\0b", "é"),
    "ok": (None, False, True),
    "age": (None, *NUMBERS),
    "note": (None, "x", "it's", ""),
    "fan": tuple(range(6)),
    "post": (-9, 0, 8),
    "kind": (None, "", "a", "é"),
    "n": NUMBERS,
    "w": (None, 5, 6),
}
# A text that is longer than any column may be compared with one.
LONG = "b" * 40
SIGNS = tuple(COMPARISONS)
ADDED = (LEAST, -2, -1, 0, 1, 2, GREATEST)
MOST_WRITES, MOST_SETS, MOST_CONDS = 12, 3, 3


def drawn_cond(chance: random.Random, table: TableLayout, row: Row | None) -> Cond:
    """A condition. It is mostly one that holds of the row, if there is one."""
    place = chance.randrange(len(table.columns))
    column = table.columns[place]
    if row is not None and chance.random() < 0.7:
        value = row[place]
        return Cond(column.name, "IS NULL") if value is None else Cond(column.name, "=", value)
    given = [value for value in VALUES[column.name] if value is not None]
    values = [*given, LONG] if column.type == "TEXT" else given
    if chance.random() < 0.2:
        return Cond(column.name, "IS NULL")
    return Cond(column.name, chance.choice(SIGNS), chance.choice(values))


def drawn_conds(chance: random.Random, table: TableLayout, row: Row | None) -> tuple[Cond, ...]:
    if chance.random() < 0.6:
        return ()
    return tuple(drawn_cond(chance, table, row) for _ in range(chance.randint(1, MOST_CONDS)))


def drawn_set(chance: random.Random, table: TableLayout, place: int) -> Set:
    column = table.columns[place]
    if column.type == "INT" and chance.random() < 0.5:
        return add(column.name, chance.choice(ADDED))
    return Set(column.name, chance.choice(VALUES[column.name]))


def drawn_update(
    chance: random.Random, table: TableLayout, key: tuple[tuple[str, Value], ...], conds: tuple[Cond, ...]
) -> Update:
    free = [place for place in range(len(table.columns)) if place not in table.key]
    places = chance.sample(free, chance.randint(1, min(MOST_SETS, len(free))))
    return Update(table.name, key, tuple(drawn_set(chance, table, place) for place in places), conds)


def drawn_write(chance: random.Random, rows: Rows) -> Write:
    """A write. It is mostly of a row that is there, where there are many."""
    table = TABLES.by_name[chance.choice(("towns", "people", "people", "likes", "likes", "likes"))]
    row = tuple(chance.choice(VALUES[column.name]) for column in table.columns)
    there = rows[table.name]
    if chance.random() < 0.4 or not there:
        return Insert(table.name, row)
    key = chance.choice(list(there)) if chance.random() < 0.9 else tuple(row[place] for place in table.key)
    named = tuple((table.columns[place].name, value) for place, value in zip(table.key, key))
    conds = drawn_conds(chance, table, there.get(key))
    return Delete(table.name, named, conds) if chance.random() < 0.4 else drawn_update(chance, table, named, conds)


def drawn_accepted(chance: random.Random, rows: Rows) -> Write:
    """A write, which of several draws is the first that isn't refused, or the last."""
    write = drawn_write(chance, rows)
    for _ in range(4):
        if refused(TABLES, rows, write) is None:
            break
        write = drawn_write(chance, rows)
    return write


def drawn_statement(chance: random.Random, rows: Rows) -> Statement:
    """A write, or a batch, each of whose writes is drawn from the rows behind those before it that can be made."""
    if chance.random() < 0.2:
        return Statement((drawn_write(chance, rows),), is_batch=False)
    writes: list[Write] = []
    for _ in range(chance.randint(1, MOST_WRITES)):
        writes.append(drawn_accepted(chance, rows) if chance.random() < 0.9 else drawn_write(chance, rows))
        rows = rows if refused(TABLES, rows, writes[-1]) else made(TABLES, rows, writes[-1])
    return Statement(tuple(writes))

