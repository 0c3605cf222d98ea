"""The stores that tests of hosts run over: memory, a file, and servers on loopback, begun once where they are installed.

Debian's etcd-server, postgresql and python3-psycopg2 have the servers and their client. A kind that isn't installed is
left out, and its tests are skipped.
"""

import atexit
import functools
import importlib.util
import itertools
import sys
import unittest
from collections.abc import Callable, Iterator

from helpers import TOP, new_folder
from piql.hosts import Backend, MemoryStore, SqliteStore
from piql.hosts.urls import open_store

TRIALS = TOP / "trials/cluster"
# Where Debian keeps the client that its own Python finds.
DEBIANS = "/usr/lib/python3/dist-packages"
sys.path.append(str(TRIALS))
if not importlib.util.find_spec("psycopg2") and sys.version_info[:2] == (3, 11):
    sys.path.append(DEBIANS)

from databases import PLACES, Databases  # noqa: E402 - the trials have the servers
from members import Members, tool  # noqa: E402

HAS_ETCD = tool("etcd") is not None
HAS_POSTGRES = importlib.util.find_spec("psycopg2") is not None and all(
    tool(name, PLACES) for name in ("postgres", "initdb", "psql")
)
needs_etcd = unittest.skipUnless(HAS_ETCD, "etcd is not installed")
needs_postgres = unittest.skipUnless(HAS_POSTGRES, "PostgreSQL or psycopg2 is not installed")
NAMES = itertools.count()


@functools.cache
def members() -> Members:
    """A member of etcd."""
    made = Members(1)
    atexit.register(made.stop)
    return made


@functools.cache
def databases() -> Databases:
    """A server of PostgreSQL."""
    made = Databases(has_standby=False)
    atexit.register(made.stop)
    return made


def etcd_url(words: str = "") -> str:
    """A new store in etcd."""
    return members().url(f"test{next(NAMES)}") + words


def postgres_url(words: str = "") -> str:
    """A new store in PostgreSQL: a database has one, which is emptied."""
    databases().ask(0, "DROP TABLE IF EXISTS piql_pairs, piql_fence")
    return databases().url((0,)) + words


def stores(case: unittest.TestCase) -> Iterator[tuple[str, Callable[[], Backend]]]:
    """The kinds of stores, each with what opens a new one again and again; memory's is kept."""
    memory, path = MemoryStore(), str(new_folder(case) / "store.db")
    yield "memory", lambda: memory
    yield "sqlite", lambda: SqliteStore(path)
    if HAS_ETCD:
        url = etcd_url()
        yield "etcd", lambda: open_store(url)
    if HAS_POSTGRES:
        database = postgres_url()
        yield "postgres", lambda: open_store(database)
