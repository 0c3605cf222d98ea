"""What is asked of the pairs of a store whose tables are known."""

import contextlib
from collections.abc import Iterator, Sequence

from .errors import InternalError
from .expected import Expected, row_key
from .findings import Findings
from .hosts.backend import Pair
from .keycodes import key_code
from .layout import Layout, TableLayout, cells
from .rowcodes import read_row
from .sources import HIGHEST, Source
from .stored import DEFINITIONS, ENTRIES, GROUPS, ROWS

LACKING, SURPLUS = "a row asks for it, and it isn't there", "no row asks for it"
OTHER = "its value isn't the one that rows ask for"


def space(source: Source, first: int) -> Iterator[Pair]:
    """The pairs of a space, which is the first byte of their keys."""
    return source.range(bytes([first]), bytes([first + 1]))


def check_outside(source: Source, findings: Findings) -> None:
    """Keys outside of all spaces."""
    for low, high in ((b"", bytes([DEFINITIONS])), (bytes([GROUPS + 1]), HIGHEST)):
        for key, _ in findings.counted(source.range(low, high)):
            findings.add(key, "a key that no run writes")


def check_row(table: TableLayout | None, pair: Pair, expected: Expected, findings: Findings) -> None:
    """One pair of the rows: its key, its code, and what it asks of the other pairs."""
    key, value = pair
    if table is None:
        findings.add(key, "no table has this number")
        return
    try:
        row = read_row(table.columns, value)
    except InternalError as error:
        findings.add(key, str(error))
        return
    if key != row_key(table.number, key_code(cells(row, table.key))):
        findings.add(key, "the row in it has another key")
        return
    expected.add(table, key, row)


def check_rows(source: Source, tables: Sequence[TableLayout], expected: Expected, findings: Findings) -> None:
    """All rows."""
    by_number = {table.number: table for table in tables}
    for pair in findings.counted(space(source, ROWS)):
        check_row(by_number.get(pair[0][1] if len(pair[0]) > 1 else 0), pair, expected, findings)


def merged(wanted: Iterator[Pair], found: Iterator[Pair]) -> Iterator[tuple[bytes, bytes | None, bytes | None]]:
    """Each key of two ordered lists of pairs, with the value that it has in each."""
    left, right = next(wanted, None), next(found, None)
    while left is not None or right is not None:
        if right is None or left is not None and left[0] < right[0]:
            assert left is not None
            yield left[0], left[1], None
            left = next(wanted, None)
        elif left is None or right[0] < left[0]:
            yield right[0], None, right[1]
            right = next(found, None)
        else:
            yield left[0], left[1], right[1]
            left, right = next(wanted, None), next(found, None)


def check_pairs(wanted: Iterator[Pair], found: Iterator[Pair], filling: bytes | None, findings: Findings) -> None:
    """The pairs that rows ask for, and no others. Those that begin with `filling` may be lacking."""
    for key, value, there in merged(wanted, findings.counted(found)):
        if there is None:
            if filling is None or not key.startswith(filling):
                findings.add(key, LACKING)
        elif value is None:
            findings.add(key, SURPLUS)
        elif there != value:
            findings.add(key, OTHER)


def check_parents(expected: Expected, rows: Iterator[Pair], findings: Findings) -> None:
    """Each foreign key of each row names a row that is there."""
    at = next(rows, None)
    for parent, key, number in expected.parents():
        while at is not None and at[0] < parent:
            at = next(rows, None)
        if at is None or at[0] != parent:
            findings.add(key, f"its foreign key {number} names no row")


def check_limits(expected: Expected, findings: Findings) -> None:
    """No group of rows has more of them than its limit."""
    for key, number, rows, most in expected.overfull():
        findings.add(key, f"its limit {number} is {most}, and {rows} rows have its values")


def check_pairs_of(source: Source, layout: Layout, findings: Findings) -> None:
    """Rows, and then what they ask of entries, counters, limits and other rows."""
    with contextlib.closing(Expected()) as expected:
        check_rows(source, layout.tables, expected, findings)
        check_pairs(expected.entries(), space(source, ENTRIES), layout.filling, findings)
        check_pairs(expected.groups(), space(source, GROUPS), None, findings)
        check_limits(expected, findings)
        if any(table.references for table in layout.tables):
            check_parents(expected, space(source, ROWS), findings)
