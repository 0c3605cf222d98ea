"""Rounds by statement and time: one engine over a host that knows rounds and over one of before, in turns."""

import statistics
import time
from collections import defaultdict
from collections.abc import Callable, Iterator
from contextlib import ExitStack, closing
from typing import Any, NamedTuple
from unittest.mock import patch

from common import Trial, load
from figures import Timed
from piql.connection import Connection
from piql.hosts import BadRequest, Host, HostLink, Op, link
from piql.hosts.rounds import HELLO
from piql.hosts.urls import open_store
from piql.hosts.wire import ROUNDS, Request, number_body

TIMES = 30
TABLES = """CREATE TABLE users (name TEXT(20), town TEXT(30), PRIMARY KEY (name));
CREATE TABLE subs (owner TEXT(20), target TEXT(20), approved BOOL, PRIMARY KEY (owner, target),
 CARDINALITY LIMIT 100 (owner), FOREIGN KEY (owner) REFERENCES users, FOREIGN KEY (target) REFERENCES users);
CREATE TABLE posts (owner TEXT(20), ts INT, body TEXT(140), PRIMARY KEY (owner, ts),
 FOREIGN KEY (owner) REFERENCES users);
CREATE TABLE trips (id INT, town TEXT(30), guest TEXT(20), PRIMARY KEY (id), CARDINALITY LIMIT 200 (town),
 FOREIGN KEY (guest) REFERENCES users);
CREATE COUNTER trips_of OF trips (guest);
PREPARE feed AS SELECT p.ts, p.body, u.town FROM subs s, posts p, users u WHERE s.owner = [1]
 AND s.approved = TRUE AND p.owner = s.target AND u.name = p.owner ORDER BY p.ts DESC PAGINATE 10;
PREPARE one AS SELECT u.town FROM users u WHERE u.name = [1]"""
# The first user follows all others, and a user has so many posts.
NAMES = [f"u{number:03}" for number in range(101)]
POSTS = 3
# How much of the time without rounds a statement may take, at most.
TARGETS = {("etcd", "feed"): 1 / 6, ("postgres", "feed"): 1 / 4, ("etcd", "one"): 1.1, ("postgres", "one"): 1.1}


class Clocked(Host):
    """A host that notes how long its calls took."""

    seconds = 0.0

    def answer(self, request: Request) -> bytes:
        begun = time.perf_counter()
        try:
            return super().answer(request)
        finally:
            self.seconds += time.perf_counter() - begun


class Before(Clocked):
    """One of before, which knows the single calls alone."""

    def body(self, request: Request) -> bytes:
        if request.op in ROUNDS:
            raise BadRequest(f"request {request.op}")
        if request.op is Op.COUNT and request.body == HELLO:
            return number_body(0)
        return super().body(request)


class Spent(NamedTuple):
    """Of a statement: the engine's requests, the calls of the store for them, and the seconds in the host."""

    requests: float
    calls: float
    seconds: float


class Statement(NamedTuple):
    """A statement with its values, and what it is of."""

    what: str
    text: str
    values: tuple[object, ...] = ()


class Side:
    """A connection over one kind of host: what it reported, and what its statements took."""

    def __init__(self, kind: type[Clocked], url: str) -> None:
        self.kind, self.store = kind, Timed(open_store(url))
        store: Any = self.store
        with patch.object(link, "Host", kind):
            self.hosted = HostLink(url, store)
            self.connection = Connection(self.hosted)
        self.reports: list[object] = []
        self.spent: dict[str, list[Spent]] = defaultdict(list)

    def made(self, make: Callable[[], object]) -> object:
        """What is made of it. A run that is begun has this kind of host."""
        with patch.object(link, "Host", self.kind):
            return make()

    def ground(self, statements: Iterator[Statement]) -> None:
        """Makes what the others stand on, by as many writes at once as an owner has rows."""
        for text in TABLES.split(";\n"):
            self.made(lambda text=text: self.connection.execute(text))  # type: ignore[misc]
        for text, rows in grouped(statements):
            for at in range(0, len(rows), len(NAMES)):
                batch: Any = self.made(self.connection.batch)
                for row in rows[at : at + len(NAMES)]:
                    batch.execute(text, row)
                self.made(batch.make)

    def run(self, statement: Statement) -> None:
        """Makes a statement, and notes what it took."""
        before = self.so_far()
        cursor: Any = self.made(lambda: self.connection.execute(statement.text, statement.values))
        rows = cursor.fetchall() if cursor.description else None
        behind = self.so_far()
        self.reports.append((statement, rows, cursor.rowcount, cursor.bound, cursor.used))
        self.spent[statement.what].append(Spent(*(new - old for old, new in zip(before, behind))))

    def so_far(self) -> Spent:
        """What the run at hand has taken."""
        host = self.hosted.host
        return Spent(host.requests, self.store.calls.total(), host.seconds if isinstance(host, Clocked) else 0.0)


def grouped(statements: Iterator[Statement]) -> Iterator[tuple[str, list[tuple[object, ...]]]]:
    """The values of each text."""
    found: dict[str, list[tuple[object, ...]]] = defaultdict(list)
    for statement in statements:
        found[statement.text].append(statement.values)
    yield from found.items()


def ground() -> Iterator[Statement]:
    """What the measured statements stand on."""
    for number, name in enumerate(NAMES):
        yield Statement("users", "INSERT INTO users VALUES (?, 'rome')", (name,))
        for turn in range(POSTS):
            yield Statement("posts", "INSERT INTO posts VALUES (?, ?, 'hello')", (name, 1000 * turn + number))


def measured(times: int) -> Iterator[Statement]:
    """The measured statements. `insert` has one index, one limit and two foreign keys, the next three a counter."""
    owner, *targets = NAMES
    yield from (Statement("insert", "INSERT INTO subs VALUES (?, ?, TRUE)", (owner, name)) for name in targets)
    for number in range(times):
        guest = NAMES[number % len(NAMES)]
        yield Statement("counted", "INSERT INTO trips VALUES (?, 'rome', ?)", (number, guest))
        yield Statement("update", "UPDATE trips SET town = 'oslo', guest = ? WHERE id = ?", (owner, number))
        yield Statement("feed", "RUN feed (?)", (owner,))
        yield Statement("one", "RUN one (?)", (guest,))
    yield from (Statement("delete", "DELETE FROM trips WHERE id = ?", (number,)) for number in range(times))


def rounds(trial: Trial) -> None:
    """Rounds of the engine and time in the host's calls, with rounds and by single calls, by statement."""
    for kind in [kind for kind, servers in (("etcd", trial.members), ("postgres", trial.databases)) if servers]:
        with ExitStack() as ended:
            sides = [Side(Clocked, trial.url(kind)), Side(Before, trial.url(kind, schema="single"))]
            for side in sides:
                ended.enter_context(closing(side.connection))
                side.ground(ground())
            for number, statement in enumerate(measured(trial.times or TIMES)):
                # In turns, and each side first as often as the other one.
                for side in sides if number % 2 else reversed(sides):
                    side.run(statement)
        trial.expect(sides[0].reports == sides[1].reports, f"{kind}: another report without rounds")
        for what in sides[0].spent:
            tell(trial, kind, what, *(side.spent[what] for side in sides))


def tell(trial: Trial, kind: str, what: str, own: list[Spent], single: list[Spent]) -> None:
    """Tells the medians of both sides, and that of what each pair's times are to each other."""
    ratio = statistics.median(new.seconds / old.seconds for new, old in zip(own, single))
    target = TARGETS.get((kind, what))
    beside = "" if target is None else f" (target: at most {target:.2f})"
    pairs = f"{len(own)} pairs, {load()}"
    trial.tell(f"{kind} {what:7} {told(own)}; by single calls {told(single)}; time {ratio:.2f}{beside}; {pairs}")


def told(spent: list[Spent]) -> str:
    """The medians of what some statements took."""
    requests, calls, seconds = map(statistics.median, zip(*spent))
    return f"{requests:.0f} requests, {calls:.0f} calls of the store, {1000 * seconds:.2f} ms"
