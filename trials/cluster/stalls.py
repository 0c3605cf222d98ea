"""What stands still: an engine, a store behind a host, servers in the middle of writes. The driver's limits end it."""

import os
import signal
import threading
import time

from common import Trial
from databases import PRIMARY
import piql
from piql.connection import Connection
from piql.errors import OperationalError
from piql.hosts import Backend, Guard, HostLink, MemoryStore

SCHEMA = "CREATE TABLE u (id INT, town TEXT(20), PRIMARY KEY (id), CARDINALITY LIMIT 100 (town))"
INSERT = "INSERT INTO u VALUES (?, ?)"
ROWS = "SELECT u.id FROM u WHERE u.id >= ? ORDER BY u.id LIMIT 1000"
STEP, WRITES, PATIENCE = 1.0, 40, 3
LEASE_SECONDS = 60.0


class Slow(MemoryStore):
    """A store in memory without transactions, of which some writes take long."""

    slow_at, writes = -1, 0
    commit = Backend.commit

    def write(self, key: bytes, guard: Guard, held: bytes, new: bytes | None) -> bool:
        self.writes += 1
        if self.writes == self.slow_at:
            time.sleep(2 * STEP)
        return super().write(key, guard, held, new)


def check(trial: Trial, what: str, connection: Connection, told: list[int], open_row: int) -> None:
    """The next opening settles: what was told is there, and the row at hand or not."""
    rows = [row[0] for row in connection.execute(ROWS, (0,)).fetchall()]
    trial.expect(rows in (told, [*told, open_row]), f"{what}: {rows}, {told} were told")
    trial.tell(f"{what}: {len(told)} told, {len(rows)} there")


def stopped_in_mid_statement(trial: Trial) -> None:
    """An engine that is stopped, and a store that is slow at each of the writes of an INSERT."""
    for slow_at in range(2, 8):
        store = Slow()
        with Connection(HostLink("memory", store, trial.engine, seconds=STEP)) as connection:
            connection.execute(SCHEMA)
            connection.execute(INSERT, (0, "a"))
            store.slow_at = store.writes + slow_at - 1
            told, begun = [0], time.monotonic()
            for number in range(1, 4):
                try:
                    connection.execute(INSERT, (number, "a"))
                    told.append(number)
                except OperationalError as error:
                    trial.expect("run was ended" in str(error), f"a slow store: {error}")
                    break
            what = f"a store that is slow at write {slow_at}, {time.monotonic() - begun:.1f} s"
            check(trial, what, connection, told, number)
    with Connection(HostLink("memory", MemoryStore(), trial.engine, seconds=STEP)) as connection:
        connection.execute(SCHEMA)
        engine = connection.link().engine  # type: ignore[attr-defined]
        os.kill(engine.process.pid, signal.SIGSTOP)
        begun = time.monotonic()
        try:
            connection.execute(INSERT, (1, "a"))
            trial.expect(False, "an engine that is stopped answers")
        except OperationalError as error:
            trial.expect("stood still" in str(error), f"an engine that is stopped: {error}")
        check(trial, f"an engine that is stopped, {time.monotonic() - begun:.1f} s", connection, [], 1)


def stopped_servers(trial: Trial, kind: str) -> None:
    """Servers that are stopped in the middle of writes, and go on once the driver gave up."""
    url = trial.url(kind, f"lease=5&patience={PATIENCE}")
    stopped = threading.Event()

    def send(number: int) -> None:
        if kind == "etcd" and trial.members:
            for member in trial.members.processes:
                trial.members.signal(member, number)
        elif trial.databases:
            trial.databases.signal(PRIMARY, number)

    def stop() -> None:
        send(signal.SIGSTOP)
        stopped.set()

    told: list[int] = []
    with piql.connect(url, program=trial.engine, timeout=LEASE_SECONDS) as connection:
        connection.execute(SCHEMA)
        threading.Timer(0.3, stop).start()
        begun, number = time.monotonic(), 0
        try:
            for number in range(1000):
                begun = time.monotonic()
                connection.execute(INSERT, (number, f"t{number // 50}"))
                told.append(number)
            trial.expect(False, f"{kind}: servers that are stopped answer")
        except OperationalError as error:
            trial.tell(f"{kind}: after {time.monotonic() - begun:.1f} s: {error}")
        stopped.wait()
        send(signal.SIGCONT)
        check(trial, f"{kind}, servers stopped and on again", connection, told, number)


def stalls(trial: Trial) -> None:
    """An engine, a store and servers that stand still: the driver's limits end the run, the next opening settles."""
    stopped_in_mid_statement(trial)
    for kind, _ in trial.urls():
        stopped_servers(trial, kind)
