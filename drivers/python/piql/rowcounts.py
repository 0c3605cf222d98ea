"""How many rows tables have, asked of whoever keeps the pairs: the language counts none."""

import os
import tempfile
from collections.abc import Iterable

from .connection import Connection
from .errors import OperationalError
from .hosts.backend import Fault
from .hosts.link import HostLink
from .links import FileLink
from .socketlink import SocketLink
from .stored import ROWS, opened

# More rows than an index is made over.
CAP = 1_000_001
FEW = "SELECT count(*) FROM (SELECT 1 FROM kv WHERE k >= ? AND k < ? LIMIT ?)"


def bounds_of(number: int) -> tuple[bytes, bytes]:
    """Between which keys the rows of a table lie."""
    return bytes([ROWS, number]), bytes([ROWS, number + 1])


def count_in_file(path: str, numbers: Iterable[int]) -> list[int]:
    """The rows of some tables of a file that no engine has open."""
    with opened(path) as file:
        return [file.execute(FEW, (*bounds_of(number), CAP)).fetchone()[0] for number in numbers]


def count_at_host(link: HostLink, numbers: Iterable[int]) -> list[int]:
    """The rows of some tables in the backends of a run."""
    try:
        return [sum(it.count(*bounds_of(number), CAP) for it in link.backends) for number in numbers]
    except Fault as fault:
        raise OperationalError(f"the rows can't be counted: {fault}") from fault


def count_in_copy(link: SocketLink, numbers: Iterable[int]) -> list[int]:
    """The rows of some tables in a copy that a server makes of its file."""
    with tempfile.TemporaryDirectory(prefix="piql-rows-") as folder:
        copy = os.path.join(folder, "copy.db")
        link.backup(copy)
        return count_in_file(copy, numbers)


def count_rows(connection: Connection, names: list[str]) -> dict[str, int]:
    """How many rows some tables of a store have, at most CAP; nothing where a store can't be asked, as in memory.

    A file's run is ended for this, and the next statement begins another.
    """
    tables = list(connection.schema().tables())
    numbers = [tables.index(name) + 1 for name in names]
    link = connection.link()
    if isinstance(link, FileLink):
        link.close()
        return dict(zip(names, count_in_file(link.path, numbers)))
    if isinstance(link, HostLink):
        return dict(zip(names, count_at_host(link, numbers)))
    if isinstance(link, SocketLink):
        return dict(zip(names, count_in_copy(link, numbers)))
    return {}
