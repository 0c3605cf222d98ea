"""What the trials share: the engine's programs, the stores that they run over, and what each found."""

import io
import itertools
import os
import pathlib
import sys
import time
from collections.abc import Callable, Iterator
from dataclasses import dataclass, field

TOP = pathlib.Path(__file__).resolve().parents[2]
sys.path[:0] = [str(TOP / "drivers/python"), str(TOP / "bin"), str(TOP / "trials")]

from databases import Databases  # noqa: E402 - the packages stand beside
from members import Members  # noqa: E402
from piql.hosts.backend import Backend  # noqa: E402
from piql.hosts.host import Host  # noqa: E402
from piql.hosts.memory import MemoryStore  # noqa: E402
from piql.hosts.script import run_script  # noqa: E402
from piql.hosts.sqlite import SqliteStore  # noqa: E402
from piql.hosts.urls import open_store  # noqa: E402

EXAMPLES = sorted((TOP / "examples").glob("*.piql"))
HIGHEST = b"\xff" * 9
ALL = 10_000_000
NAMES = itertools.count()


@dataclass
class Trial:
    """What a trial is run with, and what it found that may not be."""

    engine: str
    nodes: str | None
    members: Members | None
    databases: Databases | None
    # How many times what is random is tried.
    times: int | None = None
    strange: list[str] = field(default_factory=list)

    def expect(self, holds: bool, what: str) -> None:
        """Notes what doesn't hold."""
        if not holds:
            self.strange.append(what)
            print("STRANGE", what, flush=True)

    def tell(self, *words: object) -> None:
        """Prints a line of figures."""
        print("  ", *words, flush=True)

    def urls(self, words: str = "") -> Iterator[tuple[str, str]]:
        """The stores of clusters by their kinds, each a new one."""
        for kind, name in (("etcd", self.members), ("postgres", self.databases)):
            if name is not None:
                yield kind, self.url(kind, words)

    def url(self, kind: str, words: str = "", schema: str = "public") -> str:
        """A new store of a kind. A database has one in each schema, which is emptied."""
        if kind == "etcd":
            assert self.members is not None
            return with_words(self.members.url(f"trial{next(NAMES)}", self.members.leader()), words)
        assert self.databases is not None
        for server in self.databases.processes:
            if self.databases.ask(server, "SELECT pg_is_in_recovery()") == "f":
                self.databases.ask(server, f"DROP SCHEMA IF EXISTS {schema} CASCADE; CREATE SCHEMA {schema}")
        return with_words(self.databases.url(), f"options=-c%20search_path%3D{schema}", words)


def with_words(url: str, *words: str) -> str:
    """A URL with words behind it."""
    found = "&".join(filter(None, words))
    return f"{url}?{found}" if found else url


@dataclass(frozen=True)
class Ran:
    """A run to its end."""

    status: int
    output: bytes
    host: Host
    seconds: float


def ran(engine: str, store: Backend, script: bytes) -> Ran:
    """Runs a script over a store."""
    told, begun = io.BytesIO(), time.monotonic()
    status, host = run_script(store, io.BytesIO(script), told, engine)
    return Ran(status, told.getvalue(), host, time.monotonic() - begun)


def content(store: Backend) -> dict[bytes, bytes]:
    """All pairs of a store that is begun."""
    return dict(store.range(b"", HIGHEST, ALL))


def stores(trial: Trial, folder: pathlib.Path) -> Iterator[tuple[str, Callable[[], Backend]]]:
    """What makes a new store of each kind."""
    yield "memory", MemoryStore
    yield "sqlite", lambda: SqliteStore(str(folder / f"{next(NAMES)}.db"))
    if trial.members:
        yield "etcd", lambda: open_store(trial.url("etcd"))
    if trial.databases:
        yield "postgres", lambda: open_store(trial.url("postgres"))


def load() -> str:
    """What else the machine does, as a line says it."""
    return f"load {os.getloadavg()[0]:.1f} on {os.cpu_count()} processors"
