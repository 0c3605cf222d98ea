"""What a call costs over each store: by the clock, in processor time of engine, host and store, by its range."""

import pathlib
import resource
import tempfile
import time
from collections import Counter
from typing import Any

from common import Trial, stores
from piql.hosts import Backend, Guard, Host, run
from piql.hosts.urls import open_store

TIMES = 500
SIZES = (1_000, 10_000, 100_000)
LIMIT, ASKED = 10, 50
SCHEMA = """CREATE TABLE u (id INT, town TEXT(20), name TEXT(20), PRIMARY KEY (id), CARDINALITY LIMIT 100 (town));
PREPARE one AS SELECT * FROM u WHERE u.id = [1: id];
PREPARE town AS SELECT * FROM u WHERE u.town = [1: town] ORDER BY u.id LIMIT 10;
"""
CALLS = ("get", "range", "count", "alone", "together", "write", "commit")
FILL_SECONDS = 120.0


class Timed:
    """A store, with how often each of its calls is made, and how long they take."""

    def __init__(self, store: Backend) -> None:
        self.store, self.seconds, self.calls = store, Counter[str](), Counter[str]()

    def __getattr__(self, name: str) -> Any:
        found = getattr(self.store, name)
        if name not in CALLS:
            return found

        def timed(*words: Any) -> Any:
            begun = time.perf_counter()
            try:
                return found(*words)
            finally:
                self.seconds[name] += time.perf_counter() - begun
                self.calls[name] += 1

        return timed


def script(times: int) -> bytes:
    """Inserts of three calls, look-ups of one, and pages of eleven."""
    towns = max(1, times // 50)
    made = [SCHEMA, *(f"INSERT INTO u VALUES ({number}, 't{number // 50}', 'somebody');\n" for number in range(times))]
    made += [f"RUN one ({number * 7919 % times});\n" for number in range(times)]
    made += [f"RUN town ('t{number * 31 % towns}');\n" for number in range(times // 10)]
    return "".join(made).encode()


def measure(trial: Trial, kind: str, store: Backend, times: int) -> None:
    """A run over one store."""
    text, at, told = script(times), 0, bytearray()
    servers = {"etcd": trial.members, "postgres": trial.databases}.get(kind)

    def read(room: int) -> bytes:
        nonlocal at
        piece = text[at : at + room]
        at += len(piece)
        return piece

    store.begin()
    timed: Any = Timed(store)
    children, own = resource.getrusage(resource.RUSAGE_CHILDREN), time.process_time()
    theirs, begun = servers.processor_seconds() if servers else 0.0, time.perf_counter()
    status = run(trial.engine, Host([timed]), read, told.extend)
    seconds = time.perf_counter() - begun
    theirs, own = (servers.processor_seconds() if servers else 0.0) - theirs, time.process_time() - own
    spent = resource.getrusage(resource.RUSAGE_CHILDREN)
    engine = spent.ru_utime + spent.ru_stime - children.ru_utime - children.ru_stime
    store.close()
    trial.expect(status == 0, f"{kind}: status {status}")
    calls, waited = timed.calls.total(), timed.seconds.total()
    each = ", ".join(f"{name} {1e6 * timed.seconds[name] / max(1, timed.calls[name]):.0f}" for name in CALLS)
    clock = f"{1e6 * seconds / calls:.0f} us a call, of which the store {1e6 * waited / calls:.0f} ({each})"
    processor = f"engine {1e6 * engine / calls:.0f}, host {1e6 * own / calls:.0f}, store {1e6 * theirs / calls:.0f}"
    trial.tell(f"{kind}: {calls} calls, {calls / seconds:.0f} calls/s, {clock}; processor us a call: {processor}")


def fill(store: Backend, begin: int, end: int) -> None:
    """Pairs in the store, from one number up to another; many at once, behind the backend's back."""
    numbers = range(begin, end)
    client: Any = store.client  # type: ignore[attr-defined]
    if hasattr(store, "front"):
        from piql.hosts.etcd_client import putting, read_told

        for first in numbers[::100]:
            few = range(first, min(end, first + 100))
            puts = [putting(store.front + b"z%08d" % number, b"v") for number in few]
            client.post("/v3/kv/txn", {"success": puts}, read_told, 10.0)
    else:
        values = f"convert_to('z' || lpad(n::text, 8, '0'), 'UTF8'), 'v' FROM generate_series({begin}, {end - 1}) n"
        until = time.monotonic() + FILL_SECONDS
        client.run(f"INSERT INTO piql_pairs SELECT {values}", {}, until, FILL_SECONDS)


def ranges(trial: Trial, kind: str, url: str) -> None:
    """A range with a limit, beside the number of keys that it spans; and one that ends behind its last answer."""
    store, size = open_store(url), 0
    store.begin()
    store.write(b"z", Guard.ANY, b"", b"")
    for goal in SIZES:
        fill(store, size, goal)
        # The lease may be over meanwhile.
        store.begin()
        size, told = goal, []
        for high in (b"z~", b"z%08d" % (LIMIT - 1)):
            begun = time.perf_counter()
            for _ in range(ASKED):
                store.range(b"z", high, LIMIT)
            told.append(1e3 * (time.perf_counter() - begun) / ASKED)
        trial.tell(f"{kind}: {LIMIT} pairs of a range of {size} keys {told[0]:.1f} ms, of one of {LIMIT} {told[1]:.1f} ms")
    store.close()


def figures(trial: Trial) -> None:
    """What a call costs over each store, and a range beside the keys that it spans."""
    times = trial.times or TIMES
    with tempfile.TemporaryDirectory() as folder:
        for kind, make in stores(trial, pathlib.Path(folder)):
            measure(trial, kind, make(), times)
    for kind, _ in trial.urls():
        ranges(trial, kind, trial.url(kind))
