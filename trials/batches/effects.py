"""What a write makes of the rows, or why it is refused, by the rules: each is tested on the rows as they are."""

from collections.abc import Sequence

from piql.layout import Reference, TableLayout, cells
from piql.reports import Row, Value

from comparing import COMPARISONS, GREATEST, LEAST
from layouts import Tables
from pairs import row_code
from writes import ADD, Cond, Delete, Insert, Update, Write, key_of, places_of

# The rows of each table, by its name and their keys.
Rows = dict[str, dict[Row, Row]]
# The code of a refusal and its fields, as a report has them.
Refusal = tuple[str, ...]

LONGEST_ROW = 4096


def no_rows(tables: Tables) -> Rows:
    return {name: {} for name in tables.by_name}


def in_order(value: Value) -> object:
    """What orders values of one kind: a text goes by its bytes."""
    return value.encode() if isinstance(value, str) else value


def holds(cond: Cond, value: Value) -> bool:
    """Whether a condition holds of a value: of NULL no comparison does."""
    if cond.sign == "IS NULL":
        return value is None
    return value is not None and COMPARISONS[cond.sign](in_order(value), in_order(cond.value))


def failing(table: TableLayout, row: Row, conds: Sequence[Cond]) -> Refusal | None:
    """E511 of the first condition that doesn't hold of a row."""
    places = places_of(table)
    numbers = (n for n, cond in enumerate(conds, 1) if not holds(cond, row[places[cond.column]]))
    number = next(numbers, None)
    return None if number is None else ("E511", table.name, str(number))


def sum_of(value: Value, number: Value) -> int | None:
    """The sum of two numbers. There is none of NULL, nor above the greatest one or below the least."""
    if not isinstance(value, int) or not isinstance(number, int):
        return None
    return value + number if LEAST <= value + number <= GREATEST else None


def no_sum(table: TableLayout, row: Row, write: Update) -> Refusal | None:
    """E514 of the first column that can't be added to."""
    for it in write.sets:
        if it.word == ADD and sum_of(row[places_of(table)[it.column]], it.value) is None:
            return ("E514", table.name, it.column)
    return None


def changed(table: TableLayout, row: Row, write: Update) -> Row:
    """The row that an UPDATE makes of the one that is there, whose sums are numbers."""
    values, places = list(row), places_of(table)
    for it in write.sets:
        at = places[it.column]
        values[at] = sum_of(row[at], it.value) if it.word == ADD else it.value
    return tuple(values)


def long_row(table: TableLayout, row: Row) -> Refusal | None:
    length = len(row_code(table, row))
    return ("E508", table.name, str(length)) if length > LONGEST_ROW else None


def orphan(tables: Tables, rows: Rows, table: TableLayout, row: Row) -> Refusal | None:
    """E505 of the first foreign key whose row isn't there."""
    names = {it.number: name for name, it in tables.by_name.items()}
    for number, reference in enumerate(table.references, 1):
        values = cells(row, reference.places)
        if None not in values and values not in rows[names[reference.table]]:
            return ("E505", table.name, str(number))
    return None


def crowded(rows: Rows, table: TableLayout, old: Row | None, new: Row) -> Refusal | None:
    """E507 of the first limit whose group has no room for a row that comes to it."""
    for number, (most, places) in enumerate(table.limits, 1):
        values = cells(new, places)
        stays = old is not None and cells(old, places) == values
        if stays or None in values:
            continue
        if sum(cells(row, places) == values for row in rows[table.name].values()) >= most:
            return ("E507", table.name, str(number), str(most))
    return None


def named(rows: Rows, children: list[tuple[TableLayout, int, Reference]], key: Row) -> Refusal | None:
    """E506 of the first foreign key by which a row names the one with this key."""
    for child, number, reference in children:
        if any(cells(row, reference.places) == key for row in rows[child.name].values()):
            return ("E506", child.name, str(number))
    return None


def refused(tables: Tables, rows: Rows, write: Write) -> Refusal | None:
    """Why a write that reading lets through is refused, or None. No group of a counter here is full."""
    table = tables.by_name[write.table]
    key = key_of(table, write)
    old = rows[table.name].get(key)
    if isinstance(write, Insert):
        if old is not None:
            return ("E503", table.name)
        return orphan(tables, rows, table, write.row) or crowded(rows, table, None, write.row)
    if old is None:
        return ("E504", table.name)
    by_row = failing(table, old, write.conds)
    if by_row is not None:
        return by_row
    if isinstance(write, Delete):
        return named(rows, tables.children(table), key)
    return refused_update(tables, rows, write, old)


def refused_update(tables: Tables, rows: Rows, write: Update, old: Row) -> Refusal | None:
    """Why an UPDATE of a row of which its conditions hold is refused."""
    table = tables.by_name[write.table]
    if sums := no_sum(table, old, write):
        return sums
    new = changed(table, old, write)
    return long_row(table, new) or orphan(tables, rows, table, new) or crowded(rows, table, old, new)


def made(tables: Tables, rows: Rows, write: Write) -> Rows:
    """The rows behind a write that isn't refused."""
    table = tables.by_name[write.table]
    key, there = key_of(table, write), dict(rows[write.table])
    if isinstance(write, Insert):
        there[key] = write.row
    elif isinstance(write, Update):
        there[key] = changed(table, there[key], write)
    else:
        del there[key]
    return rows | {write.table: there}
