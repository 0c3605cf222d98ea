"""The cases that are made: tables of a key and two nullable columns of each type, their rows, and queries of them."""

import itertools
from collections.abc import Iterator
from dataclasses import dataclass
from typing import NamedTuple

from comparing import COMPARISONS, GREATEST, LEAST
from queries import Column, Constant, Item, Parameter, Predicate, Query, Relation, Row, Stop, Table
from values import Value

# Of each type its least and its greatest value.
ENDS: dict[str, tuple[Value, Value]] = {
    "INT": (LEAST, GREATEST),
    "BOOL": (False, True),
    "TEXT(4)": ("", "\U0010ffff"),
}
# The numbers of the rows of a group. The first two are values of a column as well, so that lookups by one find rows.
IDS = [LEAST, GREATEST, 0, 1]
STOPS = [None, *(Stop(word, rows) for word in ("LIMIT", "PAGINATE") for rows in (1, 2))]


class Asked(NamedTuple):
    """A query, and the values of its parameters behind the group's number."""

    query: Query
    values: tuple[Value, ...]


def row_sets(kinds: tuple[str, str]) -> list[tuple[tuple[Value, Value], ...]]:
    """All collections of up to four pairs of NULL, the least and the greatest."""
    pairs = list(itertools.product((None, *ENDS[kinds[0]]), (None, *ENDS[kinds[1]])))
    return [rows for many in range(5) for rows in itertools.combinations_with_replacement(pairs, many)]


def group_rows(group: int, pairs: tuple[tuple[Value, Value], ...]) -> list[Row]:
    """The rows of a group. Which pair comes first, and so has the least number, depends on the group."""
    first = group % max(len(pairs), 1)
    turned = pairs[first:] + pairs[:first]
    return [{"g": group, "id": number, "a": a, "b": b} for number, (a, b) in zip(IDS, turned)]


@dataclass(frozen=True)
class Family:
    """All queries over tables whose columns have two types. Each asks for the rows of one group, the first parameter.

    `free` has no limit, so a query of it has to stop. `kept` has at most five rows of a group, and at most four of them
    with one value in their column a.
    """

    kinds: tuple[str, str]

    def tables(self) -> tuple[Table, Table]:
        columns = {"g": "INT", "id": "INT", "a": f"{self.kinds[0]} NULL", "b": f"{self.kinds[1]} NULL"}
        free = Table("free", columns, ("g", "id"))
        return free, Table("kept", columns, ("g", "id"), ((5, ("g",)), (4, ("g", "a"))))

    def ends(self, name: str) -> tuple[Value, Value]:
        return ENDS[self.kinds["ab".index(name)]]

    def tests(self, alias: str) -> Iterator[tuple[tuple[Predicate, ...], tuple[Value, ...]]]:
        """No test, each comparison with an end as a constant and as a parameter, and IS NULL."""
        yield (), ()
        for name in ("a", "b"):
            column = Column(alias, name)
            yield (Predicate(column, "IS NULL", None),), ()
            for comparison, end in itertools.product(COMPARISONS, self.ends(name)):
                yield (Predicate(column, comparison, Constant(end)),), ()
                yield (Predicate(column, comparison, Parameter(2)),), (end,)
        yield (Predicate(Column(alias, "id"), "IS NULL", None),), ()

    def single(self, table: Table) -> Iterator[Asked]:
        """One relation, by each test, in each order, with each stop."""
        relation = Relation("t", table)
        group = Predicate(Column("t", "g"), "=", Parameter(1))
        for (tests, values), order, stop in itertools.product(self.tests("t"), orders("t"), STOPS):
            query = Query((relation,), (group, *tests), order, stop)
            if table.limits or stop:
                yield Asked(query, values)

    def double(self, table: Table) -> Iterator[Asked]:
        """One relation, by two tests, one of each column."""
        relation, group = Relation("t", table), Predicate(Column("t", "g"), "=", Parameter(1))
        comparisons = ["IS NULL", *COMPARISONS]
        turns = itertools.cycle(itertools.product(orders("t"), STOPS))
        for (one, other), a, b in itertools.product(
            itertools.product(comparisons, repeat=2), self.ends("a"), self.ends("b")
        ):
            tests = (test(Column("t", "a"), one, a), test(Column("t", "b"), other, b))
            order, stop = next(turns)
            yield Asked(Query((relation,), (group, *tests), order, stop), ())

    def joined(self, first: Table, second: Table) -> Iterator[Asked]:
        """Two relations of one group, tied by a nullable column or by nothing else, in orders of the second."""
        relations = (Relation("x", first), Relation("y", second))
        groups = (Predicate(Column("x", "g"), "=", Parameter(1)), Predicate(Column("y", "g"), "=", Column("x", "g")))
        ties = [(), (Predicate(Column("y", "a"), "=", Column("x", "a")),)]
        if self.kinds[0] == self.kinds[1]:
            ties.append((Predicate(Column("y", "a"), "=", Column("x", "b")),))
        if self.kinds[0] == "INT":
            ties.append((Predicate(Column("y", "id"), "=", Column("x", "a")),))
        for tie, order, stop in itertools.product(ties, orders("y"), STOPS):
            query = Query(relations, (*groups, *tie), order, stop)
            if query.is_bounded():
                yield Asked(query, ())

    def queries(self) -> Iterator[Asked]:
        free, kept = self.tables()
        yield from self.single(kept)
        yield from self.single(free)
        yield from self.double(kept)
        yield from self.joined(kept, free)
        yield from self.joined(kept, kept)


def test(column: Column, comparison: str, end: Value) -> Predicate:
    return Predicate(column, comparison, None if comparison == "IS NULL" else Constant(end))


def orders(alias: str) -> list[tuple[Item, ...]]:
    """No order, and each order of one or of both nullable columns in each direction."""
    found: list[tuple[Item, ...]] = [()]
    for names in ["a", "b", "ab", "ba"]:
        for directions in itertools.product((False, True), repeat=len(names)):
            found.append(tuple(Item(Column(alias, name), down) for name, down in zip(names, directions)))
    return found


def families() -> list[Family]:
    return [Family(kinds) for kinds in itertools.product(ENDS, repeat=2)]
