"""Who has a store: a second engine, one stopped past its lease, a host that is killed, a server with a standby."""

import os
import pathlib
import signal
import subprocess
import sys
import tempfile
import time

from common import TOP, Trial
import piql
from piql.errors import Error, OperationalError
from piql.hosts import Backend, Fault, Guard
from piql.hosts.urls import open_store

LEASE = 3
REST = 2 * LEASE + 1
SCHEMA = b"CREATE TABLE t (a INT, b TEXT(20), PRIMARY KEY (a));\n"
ALL = b"PREPARE q AS SELECT * FROM t WHERE t.a >= 0 ORDER BY t.a LIMIT 20;\nRUN q ();\n"
ROWS = "SELECT t.a, t.b FROM t WHERE t.a >= ? ORDER BY t.a LIMIT 20"


class Hosted:
    """An engine with its host, as a process of its own that runs a script over a URL."""

    def __init__(self, url: str) -> None:
        words = [sys.executable, "-B", "-m", "piql", "run", url]
        where = {"cwd": TOP / "drivers/python", "start_new_session": True}
        pipes = {"stdin": subprocess.PIPE, "stdout": subprocess.PIPE, "stderr": subprocess.PIPE}
        self.process: subprocess.Popen[bytes] = subprocess.Popen(words, **where, **pipes)  # type: ignore[call-overload]

    def say(self, text: bytes) -> bytes:
        """Sends statements; the next line of the reports."""
        self.send(text)
        assert self.process.stdout is not None
        return self.process.stdout.readline().rstrip()

    def send(self, text: bytes) -> None:
        """Sends statements."""
        assert self.process.stdin is not None
        self.process.stdin.write(text)
        self.process.stdin.flush()

    def end(self, text: bytes = b"") -> tuple[int, bytes, str]:
        """Sends the last statements; the status, and what was written then."""
        out, errors = self.process.communicate(text)
        return self.process.returncode, out, errors.decode().strip()

    def signal(self, number: int) -> None:
        """Sends a signal to the host and its engine, which has a session of its own."""
        with open(f"/proc/{self.process.pid}/task/{self.process.pid}/children") as file:
            engines = [int(word) for word in file.read().split()]
        for pid in [self.process.pid, *engines]:
            os.kill(pid, number)


def insert(number: int, who: str) -> bytes:
    """A statement that inserts a row."""
    return f"INSERT INTO t VALUES ({number}, '{who}');\n".encode()


def one_at_a_time(trial: Trial, kind: str) -> None:
    """Engines that want the same store."""
    # (The server has a synchronous standby.)
    url = trial.url(kind, f"lease={LEASE}" + ("&durability=two" if kind == "postgres" else ""))
    first = Hosted(url)
    trial.expect(first.say(b"").startswith(b"open defs 0 "), f"{kind}: the first doesn't open")
    first.say(SCHEMA)
    trial.expect(first.say(insert(1, "first")).startswith(b"2 ok"), f"{kind}: the first doesn't write")
    begun = time.monotonic()
    status, out, errors = Hosted(url).end(insert(2, "second"))
    trial.expect(status == 2 and not out and "has it" in errors, f"{kind}: a second engine {status} {out!r} {errors}")
    trial.tell(f"{kind}: a second engine ends after {time.monotonic() - begun:.1f} s: {errors}")
    first.signal(signal.SIGSTOP)
    time.sleep(REST)
    third = Hosted(url)
    trial.expect(third.say(b"").startswith(b"open defs 1 "), f"{kind}: the third doesn't open")
    trial.expect(third.say(insert(4, "third")).startswith(b"1 ok"), f"{kind}: the third doesn't write")
    first.send(insert(5, "stale") + b"DELETE FROM t WHERE a = 4;\n")
    first.signal(signal.SIGCONT)
    status, out, errors = first.end()
    trial.expect(status == 5 and not out, f"{kind}: the first, stopped for {REST} s, goes on: {status} {out!r}")
    trial.tell(f"{kind}: an engine and its host, stopped for {REST} s, end with {status}: {errors}")
    trial.expect(third.say(insert(6, "third")).startswith(b"2 ok"), f"{kind}: the third doesn't write on")
    third.process.kill()
    third.process.wait()
    begun = time.monotonic()
    while (ended := Hosted(url).end(ALL))[0] == 2 and time.monotonic() - begun < 10 * LEASE:
        time.sleep(0.2)
    rows = [line for line in ended[1].split(b"\n") if line.startswith(b"row ")]
    wanted = [b"row 1, 'first'", b"row 4, 'third'", b"row 6, 'third'"]
    trial.expect(rows == wanted, f"{kind}: behind the third, whose host was killed: {ended}")
    trial.tell(f"{kind}: the store of a host that was killed is free after {time.monotonic() - begun:.1f} s")


def calls_of_a_loser(trial: Trial, kind: str) -> None:
    """Each call of a store whose fence another took is a fault, and so is the deciding of a write."""
    url = trial.url(kind, f"lease={LEASE}")
    loser, taker = open_store(url), open_store(url)
    loser.begin()
    loser.write(b"k", Guard.ANY, b"", b"1")
    time.sleep(LEASE + 2)
    taker.begin()
    for name in ("get", "range", "count", "write", "settle"):
        try:
            told = call(loser, name)
            trial.expect(False, f"{kind}: {name} of an engine that lost its fence answers {told!r}")
        except Fault:
            pass
        # As if it hadn't seen it.
        loser.lost = None  # type: ignore[attr-defined]
        loser.renewed = time.monotonic()  # type: ignore[attr-defined]
    trial.expect(taker.get(b"k") == b"1", f"{kind}: another value")
    loser.close()
    taker.close()


def call(store: Backend, name: str) -> object:
    """Makes a call of a store."""
    if name == "get":
        return store.get(b"k")
    if name == "range":
        return store.range(b"", b"z", 5)
    if name == "count":
        return store.count(b"", b"z", 5)
    if name == "write":
        return store.write(b"k", Guard.ANY, b"", b"2")
    store.start()  # type: ignore[attr-defined]
    return store.settle()  # type: ignore[attr-defined]


def idle(trial: Trial, kind: str) -> None:
    """A connection that idles past its lease goes on by itself, and one that lost its store says who has it."""
    url = trial.url(kind, f"lease={LEASE}")
    with piql.connect(url, program=trial.engine) as first:
        first.execute(SCHEMA.decode().rstrip(";\n"))
        time.sleep(REST)
        first.execute("INSERT INTO t VALUES (1, 'first')")
        time.sleep(REST)
        with piql.connect(url, program=trial.engine, timeout=1) as second:
            second.execute("INSERT INTO t VALUES (2, 'second')")
            first.link().timeout = 0.5  # type: ignore[attr-defined]
            try:
                first.execute("INSERT INTO t VALUES (3, 'first')")
                trial.expect(False, f"{kind}: two engines have the store")
            except OperationalError as error:
                trial.expect("has it" in str(error), f"{kind}: {error}")
        rows = first.execute(ROWS, (0,)).fetchall()
        trial.expect(rows == [(1, "first"), (2, "second")], f"{kind}: an idle connection goes on with {rows}")


class Served:
    """A server of a store."""

    def __init__(self, url: str, at: pathlib.Path, *words: str) -> None:
        command = [str(TOP / "bin/piql-serve"), url, str(at), *words]
        path = os.pathsep.join([os.path.dirname(sys.executable), os.environ.get("PATH", "")])
        self.process = subprocess.Popen(command, stdout=subprocess.PIPE, text=True, env={**os.environ, "PATH": path})

    def line(self) -> str:
        """The next line that it writes."""
        assert self.process.stdout is not None
        return self.process.stdout.readline().strip()

    def end(self) -> int:
        """Ends it."""
        self.process.send_signal(signal.SIGCONT)
        self.process.terminate()
        return self.process.wait()


def standby(trial: Trial, kind: str) -> None:
    """A server that idles keeps its store; one that is stopped or killed loses it to its standby."""
    url = trial.url(kind, f"lease={LEASE}")
    with tempfile.TemporaryDirectory() as folder:
        paths = [pathlib.Path(folder) / name for name in ("first", "second", "third")]
        first = Served(url, paths[0])
        trial.expect(first.line().endswith(str(paths[0])), f"{kind}: the first server isn't there")
        clients = [piql.connect(f"unix:{paths[0]}")]
        clients[0].execute(SCHEMA.decode().rstrip(";\n"))
        clients[0].execute("INSERT INTO t VALUES (1, 'first')")
        second = Served(url, paths[1], "--standby")
        trial.expect("waits for" in second.line(), f"{kind}: the standby doesn't wait")
        time.sleep(REST)
        trial.expect(not paths[1].exists(), f"{kind}: the standby took the store of a server that idles")
        first.process.send_signal(signal.SIGSTOP)
        begun = time.monotonic()
        trial.expect(second.line().endswith(str(paths[1])), f"{kind}: the standby doesn't take over")
        trial.tell(f"{kind}: a standby takes over {time.monotonic() - begun:.1f} s after the server was stopped")
        clients.append(piql.connect(f"unix:{paths[1]}"))
        clients[1].execute("INSERT INTO t VALUES (2, 'second')")
        first.process.send_signal(signal.SIGCONT)
        try:
            clients[0].execute("INSERT INTO t VALUES (3, 'first')")
            trial.expect(False, f"{kind}: a server that lost its store writes")
        except Error as error:
            trial.tell(f"{kind}: the server that went on says: {error}")
        third = Served(url, paths[2], "--standby")
        third.line()
        second.process.kill()
        begun = time.monotonic()
        first.end()
        trial.expect(third.line().endswith(str(paths[2])), f"{kind}: the third doesn't take over")
        trial.tell(f"{kind}: a standby takes over {time.monotonic() - begun:.1f} s after the server was killed")
        clients.append(piql.connect(f"unix:{paths[2]}"))
        rows = clients[2].execute(ROWS, (0,)).fetchall()
        trial.expect(rows == [(1, "first"), (2, "second")], f"{kind}: the third server has {rows}")
        for client in clients:
            client.close()
        for server in (first, second, third):
            server.end()


def owners(trial: Trial) -> None:
    """A second engine; one that was stopped past its lease and goes on; a host killed; a server's standby."""
    for kind, _ in trial.urls():
        one_at_a_time(trial, kind)
        calls_of_a_loser(trial, kind)
        idle(trial, kind)
        standby(trial, kind)
