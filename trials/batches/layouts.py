"""Tables laid out from their definitions by the rules, without an engine."""

from collections.abc import Sequence
from typing import NamedTuple

from piql.layout import Count, Index, Limit, Reference, TableLayout, constraints_of
from piql.schema import Counter, Schema, Table, read_definition


class Made(NamedTuple):
    """An index that the query with this number makes: its table, and its columns, each with whether it descends."""

    table: str
    columns: tuple[tuple[str, bool], ...]


class Tables(NamedTuple):
    """The definitions of a store, and the layouts of its tables by their names."""

    texts: tuple[str, ...]
    by_name: dict[str, TableLayout]

    def script(self) -> str:
        """What defines them."""
        return "".join(f"{text}\n" for text in self.texts)

    def children(self, table: TableLayout) -> list[tuple[TableLayout, int, Reference]]:
        """The foreign keys to a table, each with the table that has it and its number there."""
        return [
            (child, number, reference)
            for child in self.by_name.values()
            for number, reference in enumerate(child.references, 1)
            if reference.table == table.number
        ]


def asked_indexes(
    key: tuple[int, ...], limits: Sequence[Limit], references: Sequence[Reference]
) -> list[tuple[int, ...]]:
    """The columns of the indexes that a table has for its limits and foreign keys, those of the key last."""
    found: list[tuple[int, ...]] = []
    for places in (it.places for it in (*limits, *references)):
        if not any(set(sequence[: len(places)]) == set(places) for sequence in (key, *found)):
            found.append(places + tuple(place for place in key if place not in places))
    return found


def made_index(number: int, made: Made, places: dict[str, int], key: tuple[int, ...]) -> Index:
    """The index of a query."""
    own = tuple(places[name] for name, _ in made.columns)
    rest = tuple(place for place in key if place not in own)
    return Index(number, own + rest, (*(descends for _, descends in made.columns), *(False for _ in rest)))


def laid_out(
    table: Table, numbers: dict[str, int], counters: Sequence[tuple[int, Counter]], made: Sequence[Made]
) -> TableLayout:
    """A table with its indexes and counters."""
    places = {column.name: place for place, column in enumerate(table.columns)}
    key = tuple(places[name] for name in table.key)
    limits, references = constraints_of(table.text, places, numbers)
    indexes = [
        Index(number, sequence, tuple(False for _ in sequence))
        for number, sequence in enumerate(asked_indexes(key, limits, references), 1)
    ]
    for index in made:
        indexes.append(made_index(len(indexes) + 1, index, places, key))
    counts = tuple(Count(number, tuple(places[name] for name in it.columns)) for number, it in counters)
    parts = (tuple(indexes), tuple(limits), tuple(references), counts)
    return TableLayout(numbers[table.name], table.name, table.columns, key, *parts)


def tables_of(texts: Sequence[str], made: Sequence[Made] = ()) -> Tables:
    """The tables of canonical texts. Which indexes their queries make is given."""
    schema = Schema(tuple(map(read_definition, texts)))
    found = schema.tables()
    numbers = {name: number for number, name in enumerate(found, 1)}
    counters = [(number, it) for number, it in enumerate(schema.definitions, 1) if isinstance(it, Counter)]
    by_name = {}
    for name, table in found.items():
        own = [(number, it) for number, it in counters if it.table == name]
        by_name[name] = laid_out(table, numbers, own, [it for it in made if it.table == name])
    return Tables(tuple(texts), by_name)

