"""Servers are killed in the middle of many writes; then a new engine looks at what the store holds."""

import random
import threading
import time
from collections import Counter
from collections.abc import Callable

from common import HIGHEST, Trial
from databases import PRIMARY
import piql
from piql.errors import OperationalError
from piql.hosts.backend import Held
from piql.hosts.urls import open_store

TIMES, FEW = 2000, 200
SCHEMA = "CREATE TABLE u (id INT, town TEXT(20), PRIMARY KEY (id), CARDINALITY LIMIT 100 (town))"
ROWS = "SELECT u.id, u.town FROM u WHERE u.id >= ? ORDER BY u.id PAGINATE 1000"
TOWN = "SELECT u.id FROM u WHERE u.town = ? ORDER BY u.id LIMIT 100"
# The seconds within which a killed server's lease has to be over.
LEASE_SECONDS = 60.0


def town_of(number: int, times: int) -> str:
    """The town of a row: each has few of them."""
    return f"t{number % max(20, times // 50)}"


class Writing:
    """Inserts one row after the other, and has servers killed when a third of them is made."""

    def __init__(self, trial: Trial, url: str, times: int, strike: Callable[[], None]) -> None:
        self.trial, self.url, self.times, self.strike = trial, url, times, strike
        self.told: list[int] = []
        self.longest, self.error = 0.0, ""
        # Whether a row that isn't told may have been made.
        self.open_row: int | None = None

    def run(self) -> None:
        """All the inserts, up to one that has no report."""
        with piql.connect(self.url, program=self.trial.engine) as connection:
            connection.execute(SCHEMA)
            for number in range(self.times):
                if number == self.times // 3:
                    struck = threading.Timer(0.1 * random.random(), self.strike)
                    struck.start()
                begun = time.monotonic()
                try:
                    connection.execute("INSERT INTO u VALUES (?, ?)", (number, town_of(number, self.times)))
                except OperationalError as error:
                    self.open_row, self.error = number, str(error)
                    break
                self.told.append(number)
                self.longest = max(self.longest, time.monotonic() - begun)
            struck.join()
            self.settled = connection.link().backends[0].settled  # type: ignore[attr-defined]

    def check(self, what: str) -> None:
        """Whether the store has the rows that were told, one more at most, and an entry for each."""
        url = self.url.partition("?")[0] + "?patience=30"
        with piql.connect(url, program=self.trial.engine, timeout=LEASE_SECONDS, prepare=True) as connection:
            rows, cursor = [], connection.execute(ROWS, (0,))
            rows += cursor.fetchall()
            while cursor.next_page:
                cursor = connection.execute(ROWS, (0,), after=cursor.next_page)
                rows += cursor.fetchall()
            towns = sorted({town_of(number, self.times) for number in range(self.times)})
            listed = [row[0] for town in towns for row in connection.execute(TOWN, (town,)).fetchall()]
        numbers = [row[0] for row in rows]
        extra = sorted(set(numbers) - set(self.told))
        self.trial.expect(set(self.told) <= set(numbers), f"{what}: rows that were told are missing")
        self.trial.expect(extra in ([], [self.open_row]), f"{what}: rows {extra} were not asked for")
        self.trial.expect(sorted(listed) == numbers, f"{what}: the index has other rows")
        store = open_store(url)
        store.begin()
        spaces = Counter(key[0] for key, _ in store.range(b"", HIGHEST, 10 * self.times))
        store.close()
        self.trial.expect(spaces[2] == spaces[3] == len(numbers) and not spaces[4], f"{what}: pairs {dict(spaces)}")
        made = f"{len(self.told)} of {self.times} told, {len(numbers)} there, {self.settled} settled"
        self.trial.tell(f"{what}: {made}, longest pause {self.longest:.2f} s {self.error:.150}")


def kill_leader(trial: Trial, times: int) -> None:
    """The member of etcd that leads, and is asked first, is killed; it comes back when all is done."""
    members = trial.members
    assert members is not None
    leader = members.leader()
    writing = Writing(trial, trial.url("etcd", "patience=20"), times, lambda: members.kill(leader))
    writing.run()
    trial.expect(len(writing.told) == times, f"leader killed: {len(writing.told)} told, {writing.error}")
    writing.check("etcd, leader killed")
    members.start(leader)
    members.wait()


def kill_two(trial: Trial, times: int) -> None:
    """Two of three members are killed, and come back."""
    members = trial.members
    assert members is not None
    leader = members.leader()
    two = [leader, (leader + 1) % 3]

    def strike() -> None:
        for each in two:
            members.kill(each)

    writing = Writing(trial, trial.url("etcd", "patience=6"), times, strike)
    writing.run()
    trial.expect(0 < len(writing.told) < times, f"two of three killed: {len(writing.told)} told")
    for each in two:
        members.start(each)
    members.wait()
    wait_until_free(trial, writing.url)
    writing.check("etcd, two of three killed and back")


def wait_until_free(trial: Trial, url: str) -> None:
    """Waits until nobody has a store."""
    begun = time.monotonic()
    while time.monotonic() - begun < LEASE_SECONDS:
        store = open_store(url)
        try:
            store.begin()
            trial.tell(f"the old lease is gone after {time.monotonic() - begun:.1f} s")
            return
        except Held:
            time.sleep(0.5)
        finally:
            store.close()
    trial.expect(False, "the old lease stays")


def kill_primary(trial: Trial, times: int) -> None:
    """The server of PostgreSQL that takes writes is killed, and its standby takes over."""
    databases = trial.databases
    assert databases is not None

    def strike() -> None:
        databases.kill(PRIMARY)
        databases.promote()

    writing = Writing(trial, trial.url("postgres", "patience=30"), times, strike)
    writing.run()
    trial.expect(len(writing.told) == times, f"primary killed: {len(writing.told)} told, {writing.error}")
    writing.check("PostgreSQL, primary killed, standby promoted")


def kills(trial: Trial) -> None:
    """The leader killed in the middle of 2,000 writes; two of three killed and back; the primary killed."""
    times = trial.times or TIMES
    if trial.members:
        kill_leader(trial, times)
        for _ in range(5):
            kill_leader(trial, FEW // 4)
        kill_two(trial, min(times, FEW))
    if trial.databases:
        # What is promoted stays so: no trial over PostgreSQL comes behind this one.
        kill_primary(trial, times)
