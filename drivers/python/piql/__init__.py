"""Nithragwy's driver for Python: PEP 249 over a run of the engine, or over a server that many share.

    import piql
    with piql.connect("site.db") as connection:
        cursor = connection.execute("SELECT u.town FROM users AS u WHERE u.name = ?", ("ann",))
        print(cursor.fetchall(), cursor.bound, cursor.used)
"""

import os

from .batch import Batch
from .bounds import BoundsRose, check_bounds, read_bounds, write_bounds
from .connection import Connection
from .cursor import ColumnDescription, Cursor
from .errors import (
    BatchFull,
    Changed,
    DatabaseError,
    DataError,
    Error,
    IntegrityError,
    InterfaceError,
    InternalError,
    NotBegun,
    NotSupportedError,
    OperationalError,
    OtherRecords,
    PipelineFull,
    ProgrammingError,
    StoreGone,
    Warning,
)
from .hosts.urls import is_url, open_link
from .links import FileLink, Link, MemoryLink
from .migrate import migrate
from .page import Page, page
from .pipeline import Pipeline, Result
from .plain import plain_count, plain_path, plain_seconds
from .reports import Row, Value, Work
from .socketlink import SocketLink
from .types import (
    BINARY,
    DATETIME,
    NUMBER,
    ROWID,
    STRING,
    Binary,
    Date,
    DateFromTicks,
    Time,
    TimeFromTicks,
    Timestamp,
    TimestampFromTicks,
)

apilevel = "2.0"
threadsafety = 2
paramstyle = "qmark"
# For how many seconds the engine over a cluster, or a call of its store, may stand still where nothing is said.
CLUSTER_STEP = 60.0


def connect(
    path: str | os.PathLike[str],
    *,
    prepare: bool = False,
    program: str | os.PathLike[str] | None = None,
    timeout: float = 5.0,
    reader: bool = False,
    step: float | None = None,
    error_on_missing: bool = False,
    index_rows: int = 0,
) -> Connection:
    """Opens a store: a file, `unix:SOCKET` of a piql-serve, `etcd://..`, `postgresql://..` or `:memory:`.

    A SELECT that the store has prepared is run, and any other is answered once and leaves nothing; with prepare=True
    each is prepared for good. The program is that of the argument, of the environment (PIQL_FILE, PIQL_HOST for a
    cluster, PIQL for a store in memory), or that which the repository or the release has. `timeout` is for how many
    seconds a store that another process has, or a server that isn't there, is tried again. `step` is for how many
    seconds whoever is at work on a statement may stand still: the engine over a file or in memory, or a server, until
    the report; over a cluster the engine and each call of the store. Then the wait is ended, and the error says what
    stands. None is 60 over a cluster, and no limit elsewhere. Over a cluster, any number of connections with
    reader=True read beside the one that writes. An UPDATE or a DELETE that finds no row has the rowcount 0; with
    error_on_missing=True it raises an IntegrityError, E504. A piql-serve refuses a PREPARE whose index would go over
    more rows than it allows, as all its clients wait for it; `index_rows` allows so many.
    """
    target = plain_path(path, "the store")
    timeout = plain_seconds(timeout, "timeout")
    seconds = None if step is None else plain_seconds(step, "step")
    rows = plain_count(index_rows, "index_rows")
    if reader and not is_url(target):
        raise InterfaceError(f"{target} has no readers beside its writer: reader=True is for the store of a cluster")
    link: Link
    if target == ":memory:":
        link = MemoryLink(program, seconds)
    elif is_url(target):
        link = open_link(target, program, timeout, CLUSTER_STEP if seconds is None else seconds, reader)
    elif target.startswith("unix:"):
        link = SocketLink(target[len("unix:") :], timeout, seconds, rows)
    else:
        link = FileLink(target, program, timeout, seconds)
    try:
        return Connection(link, prepare and not reader, error_on_missing)
    except BaseException:
        link.close()
        raise


__all__ = [
    "BINARY",
    "Batch",
    "BatchFull",
    "Binary",
    "BoundsRose",
    "Changed",
    "ColumnDescription",
    "Connection",
    "Cursor",
    "DATETIME",
    "DataError",
    "DatabaseError",
    "Date",
    "DateFromTicks",
    "Error",
    "IntegrityError",
    "InterfaceError",
    "InternalError",
    "NUMBER",
    "NotBegun",
    "NotSupportedError",
    "OperationalError",
    "OtherRecords",
    "Page",
    "Pipeline",
    "PipelineFull",
    "ProgrammingError",
    "ROWID",
    "Result",
    "Row",
    "STRING",
    "StoreGone",
    "Time",
    "TimeFromTicks",
    "Timestamp",
    "TimestampFromTicks",
    "Value",
    "Warning",
    "Work",
    "apilevel",
    "check_bounds",
    "connect",
    "migrate",
    "page",
    "paramstyle",
    "read_bounds",
    "threadsafety",
    "write_bounds",
]
