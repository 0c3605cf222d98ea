"""Engines that read beside the one that writes, each answer compared with the plain evaluator's at the prefix it is of.

The writer keeps the rows of the model behind each of its statements, of which some are batches, with the revision
that it was told. A reader keeps each answer with the revision at which it was pinned. So of each answer it is known
which statements it has to know of, all of them whole and no later one, and trials/plain.py says what it has to be.
"""

import bisect
import copy
import random
import threading
import time
from collections import Counter
from dataclasses import dataclass, field, replace

from common import Trial
from piql.errors import Error
from piql.hosts import HostLink, ReaderLink
from piql.hosts.etcd_client import Stored
from piql.hosts.etcd_reading import EtcdReading
from piql.hosts.urls import open_link
from plain import (
    CITIES,
    DEFINITIONS,
    NAMES,
    TIMES,
    Column,
    Parameter,
    Predicate,
    Query,
    Row,
    Rows,
    answer,
    inserts,
    literal,
    printed_orders,
    random_rows,
)

READERS, SECONDS = 3, 20
# The status of a run that took what it read for damage.
DAMAGED = 6
# One statement in so many makes an index over all rows, or a table.
BUILDS = 40
# How often one is a batch, and the most writes of it.
BATCHES, BATCH = 0.5, 5


def column(name: str) -> Column:
    """A column by its alias and its name."""
    return Column(*name.split("."))


def query(relations: dict[str, str], select: str, predicates: list[tuple[str, str, str | bool]], order: str) -> Query:
    """A query whose first parameter is a user."""
    made = [
        Predicate(column(left), comparison, right if isinstance(right, bool) else column(right) if "." in right else ME)
        for left, comparison, right in predicates
    ]
    items = [(column(item.split()[0]), item.endswith("DESC")) for item in order.split(", ")]
    return Query(relations, [column(item) for item in select.split()], made, items, "LIMIT 100")


ME = Parameter(1, "")
QUERIES = {
    "home": query(
        {"s": "subs", "t": "thoughts"},
        "t.owner t.ts t.body",
        [("s.owner", "=", "me"), ("s.approved", "=", True), ("t.owner", "=", "s.target")],
        "t.ts DESC",
    ),
    "own": query({"t": "thoughts"}, "t.ts t.body", [("t.owner", "=", "me")], "t.ts"),
    "followed": query(
        {"s": "subs", "u": "users"},
        "u.name u.city s.approved",
        [("s.owner", "=", "me"), ("u.name", "=", "s.target")],
        "u.city, u.name",
    ),
    "user": query({"u": "users"}, "u.city", [("u.name", "=", "me")], "u.name"),
    # By an index, whose entries and rows are read apart.
    "town": query({"u": "users"}, "u.name", [("u.city", "=", "me")], "u.name"),
}
# Each makes an index over all thoughts or subscriptions.
INDEXES = [
    "SELECT t.owner FROM thoughts AS t ORDER BY t.body, t.owner LIMIT 5",
    "SELECT s.owner FROM subs AS s WHERE s.target = [1] ORDER BY s.owner LIMIT 5",
    "SELECT t.owner FROM thoughts AS t ORDER BY t.ts, t.owner LIMIT 5",
    "SELECT u.name FROM users AS u ORDER BY u.city DESC, u.name LIMIT 5",
    "SELECT t.ts FROM thoughts AS t WHERE t.body = [1] ORDER BY t.ts LIMIT 5",
    "SELECT s.target FROM subs AS s ORDER BY s.approved, s.target, s.owner LIMIT 5",
]


@dataclass
class History:
    """The rows of the model behind each statement, and the revision that was told then."""

    rows: list[Rows] = field(default_factory=list)
    revisions: list[int] = field(default_factory=list)

    def add(self, rows: Rows, revision: int) -> None:
        """A statement was told."""
        self.rows.append(copy.deepcopy(rows))
        self.revisions.append(revision)

    def at(self, revision: int) -> Rows:
        """The rows behind the last statement that is whole at a revision."""
        return self.rows[bisect.bisect_right(self.revisions, revision) - 1]


@dataclass(frozen=True)
class Answer:
    """What a reader was told, at which revision, and which revision it asked for."""

    name: str
    me: str
    lines: list[str]
    revision: int
    asked_for: int


class Writer:
    """Makes statements at random that the model says are accepted."""

    def __init__(self, link: HostLink, seed: int) -> None:
        self.link, self.chance = link, random.Random(seed)
        self.history, self.counts = History(), Counter[str]()
        self.orders: dict[str, list[str]] = {}
        self.rows: Rows = {}
        self.indexes = list(INDEXES)

    def say(self, text: str) -> str:
        """The report of a statement that has to be accepted."""
        told = self.link.exchange(text.encode(), text.startswith(("SHOW", "RUN")))
        if " refused " in told.rsplit("\n", 2)[-2]:
            raise AssertionError(f"{text} is refused: {told}")
        return told

    def begin(self) -> None:
        """The tables, the queries and the first rows."""
        for text in DEFINITIONS.split(";\n")[:-1]:
            self.say(text + ";")
        for name, made in QUERIES.items():
            self.say(f"PREPARE {name} AS {made.text()};")
        self.rows = random_rows(self.chance)
        for text in inserts(self.rows).split(";\n")[:-1]:
            self.say(text + ";")
        self.orders = printed_orders("open\n" + self.say("SHOW;"))
        self.history.add(self.rows, self.link.revision)

    def step(self, number: int) -> None:
        """One statement."""
        if number % BUILDS == BUILDS // 2 and self.indexes:
            self.say(f"PREPARE index{number} AS {self.indexes.pop()};")
            self.counts["indexes made"] += 1
        elif number % BUILDS == 0:
            self.say(f"CREATE TABLE other{number} (a INT, PRIMARY KEY (a));")
            self.counts["tables made"] += 1
        elif self.chance.random() < BATCHES:
            self.say(f"BATCH {', '.join(self.change() for _ in range(self.chance.randint(2, BATCH)))};")
            self.counts["batches"] += 1
        else:
            self.say(f"{self.change()};")
            self.counts["writes"] += 1
        self.history.add(self.rows, self.link.revision)

    def change(self) -> str:
        """Changes the model's rows; the write that makes it."""
        table = self.chance.choice(["users", "subs", "subs", "thoughts", "thoughts"])
        if table == "users":
            row = self.chance.choice(self.rows["users"])
            row["city"] = self.chance.choice(CITIES)
            return f"UPDATE users SET city = {literal(row['city'])} WHERE name = {literal(row['name'])}"
        if table == "subs":
            owner, target = self.chance.choice(NAMES), self.chance.choice(NAMES)
            key: Row = {"owner": owner, "target": target}
            return self.turn(table, key, {**key, "approved": self.chance.random() < 0.6}, "approved")
        key = {"owner": self.chance.choice(NAMES), "ts": self.chance.choice(list(TIMES))}
        return self.turn(table, key, {**key, "body": f"thought {self.chance.randrange(999)}"}, "body")

    def turn(self, table: str, key: Row, new: Row, other: str) -> str:
        """Inserts a row, or updates or deletes the one with its key."""
        members = self.rows[table]
        where = " AND ".join(f"{name} = {literal(value)}" for name, value in key.items())
        found = next((row for row in members if all(row[name] == value for name, value in key.items())), None)
        if found is None:
            members.append(new)
            return f"INSERT INTO {table} VALUES ({', '.join(map(literal, new.values()))})"
        if self.chance.random() < 0.5:
            members.remove(found)
            return f"DELETE FROM {table} WHERE {where}"
        found[other] = new[other]
        return f"UPDATE {table} SET {other} = {literal(new[other])} WHERE {where}"


class Reader:
    """Runs queries at random at pinned revisions; in half of them at least at the writer's."""

    def __init__(self, url: str, engine: str, seed: int, is_loose: bool) -> None:
        self.url, self.engine, self.chance, self.is_loose = url, engine, random.Random(seed), is_loose
        self.answers: list[Answer] = []
        # What was raised, with the status of the run.
        self.errors: list[tuple[int | None, str]] = []
        self.runs = 0

    def run(self, writer: HostLink, is_over: threading.Event) -> None:
        """Until the time is over."""
        link = open_link(self.url, self.engine, reader=True)
        assert isinstance(link, ReaderLink)
        if self.is_loose and isinstance(link.reading, EtcdReading):
            link.reading = Loose(link.reading.client, link.reading.front.decode().removesuffix("/kv/"))
            link.backends = [link.reading]
        engine: object = None
        while not is_over.is_set():
            name = self.chance.choice(list(QUERIES))
            me = self.chance.choice(CITIES if name == "town" else NAMES)
            asked_for = writer.revision if self.chance.random() < 0.5 else 0
            if asked_for:
                link.wait_for(asked_for)
            try:
                told = link.exchange(f"RUN {name} ({literal(me)});".encode(), True)
            except Error as error:
                self.errors.append((error.status, str(error)))
                continue
            if link.engine is not engine:
                engine, self.runs = link.engine, self.runs + 1
            lines = told.split("\n")
            if " ok rows " not in lines[-2]:
                self.errors.append((None, told))
            self.answers.append(Answer(name, me, lines[:-2], link.reading.revision, link.least))
        link.close()


class Loose(EtcdReading):
    """What no reader may be: each call reads whatever is newest."""

    def look(self, key: bytes, **more: object) -> list[Stored]:
        pinned, self.revision = self.revision, 0
        try:
            return super().look(key, **more)
        finally:
            self.revision = pinned


def wanted(history: History, orders: dict[str, list[str]], told: Answer) -> list[str]:
    """The lines that the plain evaluator gives at a revision."""
    made = QUERIES[told.name]
    given = [replace(p, right=replace(p.right, value=told.me)) if p.right is ME else p for p in made.predicates]
    return answer(replace(made, predicates=given), history.at(told.revision), orders[told.name])


def wrong(writer: Writer, told: Answer) -> str:
    """What is wrong with an answer, or nothing."""
    right = wanted(writer.history, writer.orders, told)
    if told.lines != right:
        return f"{told} is not {right}"
    return f"{told} is older than what was asked for" if told.revision < told.asked_for else ""


def beside(trial: Trial, kind: str, url: str, reading: str, seconds: float, is_loose: bool = False) -> None:
    """Readers over a URL beside the writer of another. Of loose ones something has to be wrong."""
    link = open_link(url, trial.engine)
    writer, is_over = Writer(link, 1), threading.Event()
    writer.begin()
    readers = [Reader(reading, trial.engine, seed, is_loose) for seed in range(READERS)]
    threads = [threading.Thread(target=reader.run, args=(link, is_over)) for reader in readers]
    for thread in threads:
        thread.start()
    until, number = time.monotonic() + seconds, 0
    try:
        while time.monotonic() < until:
            number += 1
            writer.step(number)
    finally:
        is_over.set()
        for thread in threads:
            thread.join()
        link.close()
    seen = len({(reader, told.revision) for reader in readers for told in reader.answers})
    errors = [error for reader in readers for error in reader.errors]
    found = [what for reader in readers for told in reader.answers if (what := wrong(writer, told))]
    if is_loose:
        damaged = sum(status == DAMAGED for status, _ in errors)
        trial.expect(bool(errors or found), f"{kind}: all was right, so this trial shows nothing")
        faults = len(errors) - damaged
        trial.tell(f"{kind}: {damaged} ends with Damaged, {faults} with a fault, {len(found)} wrong answers")
    else:
        for what in ([text for _, text in errors] + found)[:20]:
            trial.expect(False, f"{kind}: {what:.500}")
    made = ", ".join(f"{number} {what}" for what, number in sorted(writer.counts.items()))
    answers = sum(len(reader.answers) for reader in readers)
    rows = sum(len(told.lines) for reader in readers for told in reader.answers)
    runs = sum(reader.runs for reader in readers)
    trial.tell(f"{kind}: {made}; {answers} answers of {rows} rows at {seen} revisions, {runs} engines began")


def readers(trial: Trial) -> None:
    """Three readers beside a writer, with builds: each answer is the plain evaluator's at its prefix."""
    seconds = trial.times or SECONDS
    for kind, url in trial.urls():
        beside(trial, kind, url, url, seconds)
        if kind == "postgres" and trial.databases:
            beside(trial, "postgres, readers at the standby", trial.url(kind), trial.databases.url((1,)), seconds)


def loose(trial: Trial) -> None:
    """The same where each call reads whatever is newest: what is wrong then, which is why no reader does."""
    if trial.members:
        url = trial.url("etcd")
        beside(trial, "etcd, loose", url, url, trial.times or SECONDS, True)
