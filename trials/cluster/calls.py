"""Calls at random over each store, compared with a dictionary; and the same where answers are lost on the way."""

import pathlib
import random
import tempfile
import threading
import time
from collections import Counter
from collections.abc import Callable
from typing import Any

from common import EXAMPLES, Trial, content, ran, stores
from piql.hosts import Backend, Count, Fault, Get, Guard, MemoryStore, Range
from piql.hosts.etcd import EtcdStore
from piql.hosts.etcd_client import Body, EtcdClient, T, read_told
from piql.hosts.postgres import PostgresStore
from piql.hosts.postgres_client import Lost, PostgresClient, Values
from piql.hosts.urls import open_store

TIMES = 400
KEYS = [b"", b"\0", b"\0\0", b"\1", b"a", b"a\0", b"ab", b"b", b"\xfe\xff", b"\xff"]
VALUES = [b"", b"x", b"\0y", b"%s'\\", bytes(range(256))]
# What becomes of a write on its way.
WAYS = ["good"] * 6 + ["landed", "never", "late", "very late"]
LATE, VERY_LATE = 0.004, 0.3


def compare(trial: Trial, kind: str, store: Backend, times: int, chance: random.Random) -> None:
    """Calls at random, beside the same calls on a dictionary."""
    pairs = dict[bytes, bytes]()
    for number in range(times):
        key, new, guard = chance.choice(KEYS), chance.choice([None, *VALUES]), chance.choice(list(Guard))
        held = chance.choice([*VALUES, pairs.get(key, b"")])
        found = pairs.get(key)
        holds = {Guard.ANY: True, Guard.ABSENT: found is None, Guard.IS: found == held}[guard]
        done = store.write(key, guard, held, new)
        trial.expect(done is holds, f"{kind} write {number}: {done} of {guard.name} {held!r}, where {found!r} stands")
        if holds and new is not None:
            pairs[key] = new
        elif holds:
            pairs.pop(key, None)
        low, high, most = chance.choice(KEYS), chance.choice(KEYS), chance.randrange(1, 6)
        within = sorted(pair for pair in pairs.items() if low <= pair[0] < high)[:most]
        same = store.range(low, high, most) == within, store.count(low, high, most) == len(within)
        trial.expect(all(same) and store.get(key) == pairs.get(key), f"{kind} read {number}: another answer")
        asks = [Get(key), Range(low, high, most), Count(low, high, most), *map(Get, KEYS)]
        told = [pairs.get(key), within, len(within), *map(pairs.get, KEYS)]
        trial.expect(store.together(asks) == told, f"{kind} round {number}: another answer")
    trial.expect(content(store) == pairs, f"{kind}: another content at the end")


def calls(trial: Trial) -> None:
    """Calls at random over each store."""
    times = trial.times or TIMES
    with tempfile.TemporaryDirectory() as folder:
        for kind, make in stores(trial, pathlib.Path(folder)):
            store, begun = make(), time.monotonic()
            store.begin()
            compare(trial, kind, store, times, random.Random(7))
            store.close()
            trial.tell(f"{kind}: {5 * times} calls, {time.monotonic() - begun:.2f} s")


class Lossy:
    """Loses writes: the answer of one that landed, one that never lands, and one that lands when it was given up."""

    def __init__(self, seed: int) -> None:
        self.chance, self.ways = random.Random(seed), Counter[str]()
        self.threads: list[threading.Thread] = []
        self.landed_late, self.is_over = 0, False

    def sent(self, ask: Callable[[], Any], late: Callable[[], bool]) -> Any:
        """Sends a write in one of the ways; None where its answer is lost."""
        way = self.chance.choice(WAYS)
        self.ways[way] += 1
        if way == "good":
            return ask()
        if way == "landed":
            ask()
        if way.endswith("late"):
            seconds = VERY_LATE if way == "very late" else LATE * self.chance.random()
            self.threads.append(threading.Thread(target=self.send_late, args=(seconds, late)))
            self.threads[-1].start()
            time.sleep(LATE * self.chance.random())
        return None

    def send_late(self, seconds: float, late: Callable[[], bool]) -> None:
        """A write that arrives so much later."""
        time.sleep(seconds)
        self.landed_late += late()

    def wait(self) -> None:
        """Waits for all writes that are on their way. No more are lost."""
        for thread in self.threads:
            thread.join()
        self.threads.clear()
        self.is_over = True


class LossyEtcd(EtcdClient):
    """A client of etcd that loses writes."""

    def __init__(self, endpoints: list[str], lossy: Lossy) -> None:
        super().__init__(endpoints)
        self.lossy = lossy

    def once(self, path: str, body: Body, read: Callable[[Body], T], patience: float) -> T:
        def late() -> bool:
            return EtcdClient(self.endpoints).post(path, body, read_told, 5.0).is_made

        told = self.lossy.sent(lambda: EtcdClient.once(self, path, body, read, patience), late)
        if told is None:
            raise Fault("lost")
        return told  # type: ignore[no-any-return]


class LossyPostgres(PostgresClient):
    """A client of PostgreSQL that loses writes of pairs."""

    def __init__(self, url: str, lossy: Lossy) -> None:
        super().__init__(url, 10.0)
        self.lossy = lossy
        # Connections for what is late, which are there before it is sent.
        self.others = [PostgresClient(url, 5.0) for _ in range(8)]
        for other in self.others:
            other.run("SELECT 1")

    def run(
        self, text: str, values: Values = {}, until: float | None = None, seconds: float | None = None
    ) -> list[tuple[Any, ...]]:
        def late() -> bool:
            client = self.others.pop() if self.others else PostgresClient(self.url, 5.0)
            found = client.run(text, values)
            self.others.append(client)
            return bool(found)

        if not text.startswith("WITH "):
            return super().run(text, values, until, seconds)
        told = self.lossy.sent(lambda: PostgresClient.run(self, text, values, until, seconds), late)
        if told is None:
            raise Lost("lost")
        return list(told)

    def close(self) -> None:
        super().close()
        for other in self.others if self.lossy.is_over else []:
            other.close()


def lossy_store(kind: str, url: str, lossy: Lossy) -> EtcdStore | PostgresStore:
    """A store whose writes are lost on the way."""
    store = open_store(url)
    if isinstance(store, EtcdStore):
        store.client = LossyEtcd(store.client.endpoints, lossy)
    else:
        assert isinstance(store, PostgresStore)
        store.client = LossyPostgres(url, lossy)
    return store


def lost(trial: Trial) -> None:
    """Examples, and calls at random, where answers of writes are lost: as over memory, without a fault."""
    for kind, url in trial.urls():
        lossy, settled = Lossy(5), 0
        store = lossy_store(kind, url, lossy)
        store.begin()
        compare(trial, kind, store, trial.times or TIMES // 4, lossy.chance)
        lossy.wait()
        settled += store.settled
        store.close()
        for path in EXAMPLES:
            memory = MemoryStore()
            wanted = ran(trial.engine, memory, path.read_bytes())
            lossy.is_over = False
            store = lossy_store(kind, trial.url(kind), lossy)
            done = ran(trial.engine, store, path.read_bytes())
            lossy.wait()
            same = (done.status, done.output) == (wanted.status, wanted.output)
            trial.expect(same and not done.host.faults, f"{kind} {path.stem}: another output, {done.host.why}")
            trial.expect(content(store) == memory.values, f"{kind} {path.stem}: another content")
            settled += store.settled
            store.close()
        ways = ", ".join(f"{number} {way}" for way, number in sorted(lossy.ways.items()))
        trial.tell(f"{kind}: writes {ways}; {lossy.landed_late} of those that were late landed; {settled} settled")
