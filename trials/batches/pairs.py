"""The pairs that a store has for some rows, and the code of what changes in them, by the bytes of docs/FORMATS.md."""

from collections import Counter
from collections.abc import Iterator, Mapping

from piql.keycodes import key_code
from piql.layout import TableLayout, cells
from piql.reports import Row
from piql.stored import ENTRIES, GROUPS, ROWS

from layouts import Tables

Pairs = dict[bytes, bytes]
HAS_NULL = 0x40


def cell_code(value: int | bool | str) -> bytes:
    """A value within a row's code."""
    if isinstance(value, bool):
        return bytes([value])
    if isinstance(value, int):
        return value.to_bytes(8, signed=True)
    text = value.encode()
    return len(text).to_bytes(2) + text


def stored(table: TableLayout, row: Row) -> Row:
    """The row without the added columns at its end that have their defaults."""
    count = len(row)
    while table.columns[count - 1].is_added and row[count - 1] == table.columns[count - 1].default:
        count -= 1
    return row[:count]


def row_code(table: TableLayout, row: Row) -> bytes:
    """The code of the stored row."""
    values = stored(table, row)
    nulls = sum(1 << place for place, value in enumerate(values) if value is None)
    head = bytes([len(values) + HAS_NULL]) + nulls.to_bytes(4) if nulls else bytes([len(values)])
    return head + b"".join(cell_code(value) for value in values if value is not None)


def row_key(table: TableLayout, key: Row) -> bytes:
    return bytes([ROWS, table.number]) + key_code(key)


def entry_keys(table: TableLayout, row: Row) -> Iterator[bytes]:
    for index in table.indexes:
        code = key_code(cells(row, index.places), index.descends)
        yield bytes([ENTRIES, table.number, index.number]) + code


def group_keys(table: TableLayout, row: Row) -> Iterator[bytes]:
    """The keys of the groups that a row is in."""
    for count in table.counts:
        if None not in (values := cells(row, count.places)):
            yield bytes([GROUPS]) + count.number.to_bytes(2) + key_code(values)


def pairs_of(tables: Tables, rows: Mapping[str, Mapping[Row, Row]]) -> Pairs:
    """All pairs of rows, entries and counters."""
    found: Pairs = {}
    groups: Counter[bytes] = Counter()
    for name, table in tables.by_name.items():
        for key, row in rows[name].items():
            found[row_key(table, key)] = row_code(table, row)
            found.update((entry, b"") for entry in entry_keys(table, row))
            groups.update(group_keys(table, row))
    return found | {key: number.to_bytes(8) for key, number in groups.items()}


def changed_keys(table: TableLayout, key: Row, old: Row | None, new: Row | None) -> set[bytes]:
    """The keys that a write changes: its row's own, and those of entries and groups of one of both rows alone."""
    found = {row_key(table, key)}
    for keys_of in (entry_keys, group_keys):
        before, behind = (set() if row is None else set(keys_of(table, row)) for row in (old, new))
        found |= before ^ behind
    return found


def length_of(changes: Mapping[bytes, bytes | None]) -> int:
    """The length of the code of changes: their number, and of each the key and the value, or that there is none."""
    return 2 + sum(4 + len(key) + 1 + (0 if new is None else 4 + len(new)) for key, new in changes.items())

