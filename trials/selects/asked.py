"""Queries at random over made tables: with constants for a SELECT, with parameters for a RUN, and changed ones."""

import random
from collections.abc import Iterator, Sequence
from dataclasses import replace
from typing import NamedTuple

import plain
from made import Asked, Family, families, group_rows, row_sets
from piql.scripts import tokens
from queries import Constant, Parameter, Query, Row
from values import Value, written

# How many groups of rows a store of a family has.
GROUPS = 8
STOPS = ("LIMIT", "PAGINATE")
# What may come into a text, or in place of a part of it, by the kinds of tokens.
PARTS = {
    "word": "users subs kept free name owner ts id a b t x nothing FROM WHERE AND DESC NULL IS AS TRUE".split(),
    "number": "-1 0 1 2 1000 1001 9223372036854775807 9223372036854775808".split(),
    "text": ["'x'", "''", f"'{'x' * 1000}'", f"'{'x' * 1001}'"],
    "mark": "= <> < <= > >= , . * ( ) [1] [2]".split(),
}
ALL_PARTS = [part for parts in PARTS.values() for part in parts]


class Selected(NamedTuple):
    """A query: the store that it is for, its text with constants, the same with parameters, and their values.

    The rows are those that the rules give, where they are known. A changed query has one text alone.
    """

    place: int
    text: str
    parametric: str
    values: str
    rows: list[str] | None = None


def literal_query(query: plain.Query) -> plain.Query:
    """The query with its parameters' values in their place."""
    predicates = [
        replace(it, right=it.right.value) if isinstance(it.right, plain.Parameter) else it for it in query.predicates
    ]
    return replace(query, predicates=predicates)


class Plain:
    """Queries of up to four relations over users, subscriptions and thoughts."""

    def __init__(self, chance: random.Random, place: int) -> None:
        self.chance, self.place = chance, place
        self.script = plain.DEFINITIONS + plain.inserts(plain.random_rows(chance))

    def drawn(self) -> Selected:
        chance = self.chance
        stop = "" if chance.random() < 0.3 else f"{chance.choice(STOPS)} {chance.choice((1, 2, 3, 10))}"
        query = replace(plain.random_query(chance, chance.choice((1, 1, 2, 3, 4))), stop=stop)
        values = ", ".join(map(plain.literal, query.parameters()))
        return Selected(self.place, literal_query(query).text(), query.text(), values)


class Nullable:
    """Queries over two tables with nullable columns, and the rows that they answer."""

    def __init__(self, chance: random.Random, place: int, family: Family) -> None:
        self.chance, self.place = chance, place
        self.asked: Sequence[Asked] = list(family.queries())
        self.rows = {table.name: self.drawn_rows(family) for table in family.tables()}
        texts = [table.definition() for table in family.tables()]
        for name, rows in self.rows.items():
            texts += [f"INSERT INTO {name} VALUES ({', '.join(map(written, row.values()))})" for row in rows]
        self.script = "".join(f"{text};\n" for text in texts)

    def drawn_rows(self, family: Family) -> list[Row]:
        sets = row_sets(family.kinds)
        return [row for group in range(GROUPS) for row in group_rows(group, self.chance.choice(sets))]

    def drawn(self) -> Selected:
        query, values = self.chance.choice(self.asked)
        given = (self.chance.randrange(GROUPS), *values)
        text = with_constants(query, given).text()
        most = query.stop.rows if query.stop else None
        rows = [query.row(it) for it in query.answer(self.rows, given)[:most]]
        return Selected(self.place, text, query.text(), ", ".join(map(written, given)), rows)


def with_constants(query: Query, values: Sequence[Value]) -> Query:
    """The query with these values in place of its parameters."""
    where = tuple(
        it._replace(right=Constant(values[it.right.number - 1])) if isinstance(it.right, Parameter) else it
        for it in query.where
    )
    return replace(query, where=where)


def changed(chance: random.Random, text: str) -> str:
    """The text with a token taken out, put twice or exchanged with another, or mostly with one of its kind."""
    found = tokens(text)
    parts = [token.text for token in found]
    at, other = chance.randrange(1, len(parts)), chance.randrange(1, len(parts))
    match chance.randrange(10):
        case 0:
            del parts[at]
        case 1:
            parts.insert(at, chance.choice((parts[at], chance.choice(ALL_PARTS))))
        case 2:
            parts[at], parts[other] = parts[other], parts[at]
        case _:
            parts[at] = chance.choice(PARTS.get(found[at].kind, ALL_PARTS))
    return " ".join(parts)


class Queries:
    """Stores, and queries at random for each of them."""

    def __init__(self, chance: random.Random) -> None:
        self.chance = chance
        self.sources: list[Plain | Nullable] = [Plain(chance, place) for place in range(4)]
        for family in families():
            self.sources.append(Nullable(chance, len(self.sources), family))

    def drawn(self) -> Selected:
        """A query as it is made, or changed; then nothing is known of its rows, and it has no other text."""
        kinds = self.sources[:4] if self.chance.random() < 0.6 else self.sources[4:]
        query = self.chance.choice(kinds).drawn()
        if self.chance.random() < 0.7:
            return query
        text = changed(self.chance, query.text if self.chance.random() < 0.7 else query.parametric)
        return Selected(query.place, text, text, "")

    def all(self, number: int) -> Iterator[Selected]:
        return (self.drawn() for _ in range(number))
