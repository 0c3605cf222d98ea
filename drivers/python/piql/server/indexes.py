"""What a PREPARE would cost those who wait behind it: the index that it would make, and over how many rows.

An index is made in one statement, which can't be given up: behind its mark in the store the next opening completes it.
So the rows are counted before. That is possible where this process answers the calls of the store itself, over a
cluster; piql_file has its file alone, and no statement of the language counts the rows of a table.
"""

from typing import NamedTuple

from ..errors import Error
from ..hosts.backend import Fault
from ..hosts.link import HostLink
from ..reports import IndexLine, read_report
from ..scripts import tokens
from .observed import Observed
from .requests import Request

ROWS = 2
REFUSED = (
    "this PREPARE makes the index {table} ({columns}) over more than {rows} rows. No other statement is made meanwhile,"
    " and it can't be given up: so it wasn't made. A client may allow more rows (connect(.., index_rows=N)), and"
    " so may the server (--index-rows N)"
)


class Wanted(NamedTuple):
    """The index that a PREPARE would make, and whether its table has more rows than are allowed; None: who knows."""

    table: str
    columns: str
    is_large: bool | None


def explain_of(request: Request) -> bytes | None:
    """The EXPLAIN of the query that a PREPARE keeps; None where it is none."""
    try:
        text = request.text.decode()
    except UnicodeDecodeError:
        return None
    found = tokens(text)
    if len(found) < 4 or not found[2].is_word("AS"):
        return None
    return f"EXPLAIN {text[found[3].start :]}".encode()


def index_of(store: Observed, explain: bytes) -> IndexLine | None:
    """The index that a query wants and the store doesn't have."""
    report = read_report(store.exchange(explain, True))
    return next(iter(report.indexes()), None)


def is_larger(store: Observed, table: str, rows: int) -> bool | None:
    """Whether a table has more rows than these; None where they can't be counted."""
    tables = store.figures.catalog.tables
    if not isinstance(store.link, HostLink) or table not in tables:
        return None
    number = tables.index(table) + 1
    try:
        return store.link.backends[0].count(bytes([ROWS, number]), bytes([ROWS, number + 1]), rows + 1) > rows
    except Fault:
        return None


def wanted(store: Observed, request: Request, rows: int) -> Wanted | None:
    """The index that a PREPARE would make, if it would make one."""
    explain = explain_of(request)
    if explain is None:
        return None
    try:
        index = index_of(store, explain)
    except (Error, ValueError):
        # The PREPARE itself meets what this met, and tells it.
        return None
    return index and Wanted(index.table, ", ".join(index.columns), is_larger(store, index.table, rows))
