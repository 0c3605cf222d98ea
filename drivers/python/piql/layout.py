"""Where a store keeps what its definitions speak of: the numbers of tables and indexes, and the columns of each key.

The columns of an index that a query made are known to the planner alone. So the definitions are made once more, in an
empty store of their own, by the engine; it also tells whether each is one that it would have written.
"""

import os
import tempfile
from collections.abc import Sequence
from typing import NamedTuple

from .connection import Connection
from .errors import Error
from .migrate import scratch_link
from .reports import IndexLine, Report, Row, Value
from .schema import Column, Counter, Schema, names_behind
from .scripts import tokens
from .statements import Sent, read_statement
from .stored import ENTRIES

Program = str | os.PathLike[str] | None
DESCENDING = " DESC"


class Index(NamedTuple):
    """An index: the places of its columns, those of the key last, and which of them descend."""

    number: int
    places: tuple[int, ...]
    descends: tuple[bool, ...]


class Limit(NamedTuple):
    """At most so many rows have the same values at these places."""

    most: int
    places: tuple[int, ...]


class Reference(NamedTuple):
    """A foreign key: the places of its columns, and the number of the table whose key they are."""

    places: tuple[int, ...]
    table: int


class Count(NamedTuple):
    """A counter: the number of its definition, and the places of its columns."""

    number: int
    places: tuple[int, ...]


class TableLayout(NamedTuple):
    """A table by its number, with all that its rows have to agree with."""

    number: int
    name: str
    columns: tuple[Column, ...]
    key: tuple[int, ...]
    indexes: tuple[Index, ...]
    limits: tuple[Limit, ...]
    references: tuple[Reference, ...]
    counts: tuple[Count, ...]


class Layout(NamedTuple):
    """All tables, and what the keys of entries begin with whose index is being filled."""

    tables: tuple[TableLayout, ...]
    filling: bytes | None


class WrongDefinition(Exception):
    """A definition that no run writes: its number, from 1, and why; or 0 where that was told already."""

    def __init__(self, number: int = 0, why: str = "") -> None:
        super().__init__(why)
        self.number = number


def cells(row: Row, places: Sequence[int]) -> tuple[Value, ...]:
    """The values of a row at some places."""
    return tuple(row[place] for place in places)


def defined_anew(texts: Sequence[str], program: Program) -> tuple[list[Report], Schema]:
    """What an engine reports of definitions in an empty store, and the schema. Each text has to be canonical."""
    with tempfile.TemporaryDirectory(prefix="piql-layout-") as folder:
        with Connection(scratch_link(folder, program)) as scratch:
            reports = []
            for number, text in enumerate(texts, 1):
                try:
                    reports.append(scratch.report(Sent(read_statement(text), "", ())))
                except Error as error:
                    raise WrongDefinition(number, f"the engine refuses it: {error.number or 'no statement'}") from error
            schema = scratch.refresh()
    for number, (text, found) in enumerate(zip(texts, schema.definitions), 1):
        if text != found.text:
            raise WrongDefinition(number, "its text isn't canonical")
    return reports, schema


def index_of(line: IndexLine, places: dict[str, int], key: Sequence[int]) -> Index:
    """An index of its line, which leaves out the columns of the key that come behind its own."""
    own = tuple(places[column.removesuffix(DESCENDING)] for column in line.columns)
    rest = tuple(place for place in key if place not in own)
    descends = [column.endswith(DESCENDING) for column in line.columns]
    return Index(line.number, own + rest, (*descends, *(False for _ in rest)))


def constraints_of(text: str, places: dict[str, int], tables: dict[str, int]) -> tuple[list[Limit], list[Reference]]:
    """The limits and the foreign keys of a table's canonical text."""
    found, limits, references = tokens(text), [], []
    for at, token in enumerate(found):
        if token.is_word("CARDINALITY"):
            names, _ = names_behind(found, at + 3)
            limits.append(Limit(int(found[at + 2].text), tuple(places[name] for name in names)))
        elif token.is_word("FOREIGN"):
            names, behind = names_behind(found, at + 2)
            references.append(Reference(tuple(places[name] for name in names), tables[found[behind + 1].text]))
    return limits, references


def tables_of(reports: Sequence[Report], schema: Schema) -> list[TableLayout]:
    """The tables by their numbers."""
    tables = schema.tables()
    numbers = {name: number for number, name in enumerate(tables, 1)}
    counters = [(place, it) for place, it in enumerate(schema.definitions, 1) if isinstance(it, Counter)]
    lines = [line for report in reports for line in report.indexes()]
    found = []
    for name, table in tables.items():
        places = {column.name: place for place, column in enumerate(table.columns)}
        key = tuple(places[column] for column in table.key)
        limits, references = constraints_of(table.text, places, numbers)
        indexes = tuple(index_of(line, places, key) for line in lines if line.table == name)
        own = [(place, it.columns) for place, it in counters if it.table == name]
        counts = tuple(Count(number, tuple(places[it] for it in columns)) for number, columns in own)
        parts = (indexes, tuple(limits), tuple(references), counts)
        found.append(TableLayout(numbers[name], name, table.columns, key, *parts))
    return found


def layout_of(texts: Sequence[str], is_filling: bool, program: Program) -> Layout:
    """The layout of a store with these definitions, the index of whose last one may be being filled."""
    reports, schema = defined_anew(texts, program)
    tables = tuple(tables_of(reports, schema))
    if not is_filling:
        return Layout(tables, None)
    if not reports[-1].queries() or not reports[-1].indexes():
        raise WrongDefinition(len(texts), "it is marked as being filled, and is no query that made an index")
    line = reports[-1].indexes()[0]
    number = next(table.number for table in tables if table.name == line.table)
    return Layout(tables, bytes([ENTRIES, number, line.number]))
