"""What a statement may use at most, by the tables of docs/LANGUAGE.md."""

from collections.abc import Sequence
from typing import NamedTuple

from piql.layout import TableLayout
from piql.reports import Work

from layouts import Tables
from writes import Delete, Insert, Update, Write, places_of


class Cost(NamedTuple):
    """Of a write: what it reads, the pairs that it may change, and the groups whose rows it may count."""

    operations: int
    entries: int
    pairs: int
    groups: int


def commit(pairs: int) -> int:
    """How many operations a commit of so many pairs has at most."""
    return 1 if pairs == 1 else pairs + 2


def insert_cost(table: TableLayout) -> Cost:
    parents, limits, counters = len(table.references), table.limits, len(table.counts)
    entries = 1 + parents + sum(limit.most for limit in limits) + counters
    pairs = 1 + len(table.indexes) + counters
    return Cost(1 + parents + len(limits) + counters, entries, pairs, len(limits))


def delete_cost(tables: Tables, table: TableLayout) -> Cost:
    children, counters = len(tables.children(table)), len(table.counts)
    reads = 1 + children + (counters > 0) + counters
    return Cost(reads, reads, 1 + len(table.indexes) + counters, children)


def update_cost(table: TableLayout, write: Update) -> Cost:
    places = places_of(table)
    touched = {places[it.column] for it in write.sets}
    parents = sum(not touched.isdisjoint(it.places) for it in table.references)
    limits = [it for it in table.limits if not touched.isdisjoint(it.places)]
    counters = sum(not touched.isdisjoint(it.places) for it in table.counts)
    indexes = sum(not touched.isdisjoint(it.places) for it in table.indexes)
    tested = (counters > 0) + 2 * counters
    entries = 1 + parents + sum(limit.most for limit in limits) + tested
    return Cost(1 + parents + len(limits) + tested, entries, 1 + 2 * indexes + 2 * counters, len(limits))


def cost(tables: Tables, write: Write) -> Cost:
    table = tables.by_name[write.table]
    if isinstance(write, Insert):
        return insert_cost(table)
    return delete_cost(tables, table) if isinstance(write, Delete) else update_cost(table, write)


def bound_of(tables: Tables, writes: Sequence[Write]) -> Work:
    """The bound of a batch, which for one write is that write's own."""
    operations = entries = pairs = removing = 0
    for write in writes:
        one = cost(tables, write)
        operations += one.operations
        entries += one.entries + one.groups * removing
        pairs += one.pairs
        removing += not isinstance(write, Insert)
    return Work(operations + commit(pairs), entries)
