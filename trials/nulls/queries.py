"""Queries, and what they answer: a filter of all combinations of rows, a sort, and pages of it."""

import itertools
from collections.abc import Iterator, Mapping, Sequence
from dataclasses import dataclass
from typing import NamedTuple

from values import Value, cursor, holds, rank, written

Row = Mapping[str, Value]
Combination = Mapping[str, Row]


@dataclass(frozen=True)
class Table:
    name: str
    columns: Mapping[str, str]
    key: tuple[str, ...]
    limits: tuple[tuple[int, tuple[str, ...]], ...] = ()

    def definition(self) -> str:
        parts = [f"{name} {kind}" for name, kind in self.columns.items()]
        parts.append(f"PRIMARY KEY ({', '.join(self.key)})")
        parts += [f"CARDINALITY LIMIT {most} ({', '.join(columns)})" for most, columns in self.limits]
        return f"CREATE TABLE {self.name} ({', '.join(parts)})"


class Relation(NamedTuple):
    alias: str
    table: Table


class Column(NamedTuple):
    alias: str
    name: str

    def __str__(self) -> str:
        return f"{self.alias}.{self.name}"


class Parameter(NamedTuple):
    """A parameter, by its number from 1."""

    number: int

    def __str__(self) -> str:
        return f"[{self.number}]"


class Constant(NamedTuple):
    value: Value

    def __str__(self) -> str:
        return written(self.value)


class Predicate(NamedTuple):
    """A comparison of a column with something, or IS NULL, which has nothing on its right."""

    left: Column
    comparison: str
    right: Column | Parameter | Constant | None

    def columns(self) -> list[Column]:
        return [self.left, self.right] if isinstance(self.right, Column) else [self.left]

    def aliases(self) -> set[str]:
        return {column.alias for column in self.columns()}

    def __str__(self) -> str:
        return f"{self.left} {self.comparison}" + (f" {self.right}" if self.right else "")


class Item(NamedTuple):
    """A column of ORDER BY."""

    column: Column
    descending: bool

    def __str__(self) -> str:
        return f"{self.column} DESC" if self.descending else str(self.column)


class Stop(NamedTuple):
    word: str
    rows: int


class Page(NamedTuple):
    rows: list[str]
    cursor: str | None


@dataclass(frozen=True)
class Query:
    relations: tuple[Relation, ...]
    where: tuple[Predicate, ...]
    order: tuple[Item, ...]
    stop: Stop | None

    def selected(self) -> list[Column]:
        return [Column(alias, name) for alias, table in self.relations for name in table.columns]

    def text(self) -> str:
        parts = ["SELECT " + ", ".join(map(str, self.selected()))]
        parts.append("FROM " + ", ".join(f"{table.name} AS {alias}" for alias, table in self.relations))
        parts.append("WHERE " + " AND ".join(map(str, self.where)))
        if self.order:
            parts.append("ORDER BY " + ", ".join(map(str, self.order)))
        if self.stop:
            parts.append(f"{self.stop.word} {self.stop.rows}")
        return " ".join(parts)

    def earlier(self, place: int) -> set[str]:
        return {alias for alias, _ in self.relations[:place]}

    def belonging(self, place: int) -> list[Predicate]:
        """The predicates of a relation: those that name it and none behind it."""
        own, known = self.relations[place].alias, self.earlier(place + 1)
        return [it for it in self.where if own in it.aliases() and it.aliases() <= known]

    def fixed(self, place: int) -> set[str]:
        """The columns of a relation that equalities tie to a value or to a column of an earlier one."""
        own = self.relations[place].alias
        equalities = [it for it in self.belonging(place) if it.comparison == "="]
        return {side.name for it in equalities for side in it.columns() if side.alias == own}

    def is_lookup(self, place: int) -> bool:
        return set(self.relations[place].table.key) <= self.fixed(place)

    def is_limited(self, place: int) -> bool:
        limits = self.relations[place].table.limits
        return self.is_lookup(place) or any(set(columns) <= self.fixed(place) for _, columns in limits)

    def is_bounded(self) -> bool:
        """Whether it has a bound. No table here has a foreign key, so it can stop at the last relation alone."""
        last = len(self.relations) - 1
        if not all(map(self.is_limited, range(last))):
            return False
        return self.is_limited(last) or (self.stop is not None and self.stops_at(last))

    def stops_at(self, place: int) -> bool:
        """Whether each predicate on a column that isn't fixed is a range of the first such one of ORDER BY."""
        alias, fixed = self.relations[place].alias, self.fixed(place)
        free = [it for it in self.belonging(place) if it.left.alias == alias and it.left.name not in fixed]
        firsts = [it.column for it in self.order if it.column.alias == alias and it.column.name not in fixed]
        return all(firsts and it.left == firsts[0] and it.comparison in ("<", "<=", ">", ">=") for it in free)

    def position(self) -> list[Item]:
        """The columns whose values are the place of a combination in the answer."""
        items = list(self.order)
        for place, (alias, table) in enumerate(self.relations):
            if not self.is_lookup(place):
                own = [Column(alias, name) for name in table.key]
                items += [Item(column, False) for column in own if column not in [item.column for item in self.order]]
        return items

    def passes(self, combination: Combination, parameters: Sequence[Value]) -> bool:
        return all(passes(predicate, combination, parameters) for predicate in self.where)

    def answer(self, rows: Mapping[str, Sequence[Row]], parameters: Sequence[Value]) -> list[Combination]:
        """All combinations of rows for which every predicate holds, in the order of their positions."""
        aliases = [alias for alias, _ in self.relations]
        products = itertools.product(*(rows[table.name] for _, table in self.relations))
        found = [dict(zip(aliases, product)) for product in products]
        found = [combination for combination in found if self.passes(combination, parameters)]
        for column, descending in reversed(self.position()):
            found.sort(key=lambda combination: rank(value_at(combination, column)), reverse=descending)
        return found

    def pages(self, definition: int, answer: Sequence[Combination]) -> Iterator[Page]:
        """The pages of an answer from the first to the first that isn't full; without PAGINATE its one part."""
        stop = self.stop or Stop("LIMIT", len(answer))
        first, full = 0, True
        while full:
            part = answer[first : first + stop.rows]
            full = stop.word == "PAGINATE" and len(part) == stop.rows
            yield Page([self.row(it) for it in part], self.cursor(definition, part[-1]) if full else None)
            first += stop.rows

    def row(self, combination: Combination) -> str:
        return "row " + ", ".join(written(value_at(combination, column)) for column in self.selected())

    def cursor(self, definition: int, combination: Combination) -> str:
        items = self.position()
        return cursor(definition, [value_at(combination, it.column) for it in items], [it.descending for it in items])


def value_at(combination: Combination, column: Column) -> Value:
    return combination[column.alias][column.name]


def passes(predicate: Predicate, combination: Combination, parameters: Sequence[Value]) -> bool:
    left = value_at(combination, predicate.left)
    match predicate.right:
        case None:
            return left is None
        case Column() as column:
            return holds(predicate.comparison, left, value_at(combination, column))
        case Parameter(number):
            return holds(predicate.comparison, left, parameters[number - 1])
        case Constant(value):
            return holds(predicate.comparison, left, value)
