"""PostgreSQL on loopback, a server and a synchronous standby: they are ended by their process ids, and leave nothing."""

import contextlib
import os
import pathlib
import pwd
import shutil
import signal
import subprocess
import tempfile
import time
from types import TracebackType

from members import PAUSE, READY_SECONDS, end_with_parent, free_ports, processor_seconds, tool

# Debian's folders, that of the newest version first.
FOUND = sorted(pathlib.Path("/usr/lib/postgresql").glob("*/bin"), key=lambda path: float(path.parent.name), reverse=True)
PLACES = tuple(map(str, FOUND))
USER = "piql"
# The server refuses to be run by root, so root runs it as Debian's user for it.
RUNNER = "postgres" if os.geteuid() == 0 else None
PRIMARY, STANDBY = 0, 1
CONFIGURED = """
listen_addresses = '127.0.0.1'
port = {port}
unix_socket_directories = ''
max_connections = 50
shared_buffers = 64MB
hot_standby_feedback = on
log_min_messages = error
"""


def children(pid: int) -> list[int]:
    """The processes that a server has started."""
    with contextlib.suppress(OSError):
        return [int(word) for word in pathlib.Path(f"/proc/{pid}/task/{pid}/children").read_text().split()]
    return []


class Databases:
    """A server that takes writes, and one that has each write before it is told, if one is wanted."""

    def __init__(self, has_standby: bool = True) -> None:
        self.folder = pathlib.Path(tempfile.mkdtemp(prefix="piql-postgres-"))
        self.ports = free_ports(2)
        self.processes: dict[int, subprocess.Popen[bytes]] = {}
        try:
            if RUNNER:
                os.chown(self.folder, pwd.getpwnam(RUNNER).pw_uid, -1)
            self.make_primary()
            if has_standby:
                self.make_standby()
        except BaseException:
            self.stop()
            raise

    def data(self, server: int) -> str:
        """The folder of a server."""
        return str(self.folder / f"d{server}")

    def url(self, servers: tuple[int, ...] = (PRIMARY, STANDBY)) -> str:
        """What `piql.connect` takes."""
        places = ",".join(f"127.0.0.1:{self.ports[server]}" for server in servers)
        return f"postgresql://{USER}@{places}/postgres"

    def run(self, name: str, *words: str) -> str:
        """Runs one of PostgreSQL's programs."""
        path = tool(name, PLACES) or name
        how = {"capture_output": True, "text": True, "preexec_fn": end_with_parent}
        done = subprocess.run([path, *words], user=RUNNER, cwd=self.folder, **how)  # type: ignore[call-overload]
        if done.returncode:
            raise SystemExit(f"{name} failed: {done.stderr}")
        return done.stdout

    def ask(self, server: int, text: str) -> str:
        """What a server answers to a statement."""
        how = ["-h", "127.0.0.1", "-p", str(self.ports[server]), "-U", USER, "-d", "postgres", "-XAtq"]
        return self.run("psql", *how, "-c", text).strip()

    def make_primary(self) -> None:
        """Makes the first server."""
        self.run("initdb", "-D", self.data(PRIMARY), "-U", USER, "--auth=trust", "-E", "UTF8", "--no-sync")
        self.start(PRIMARY)

    def make_standby(self) -> None:
        """Makes the second one, and has the first wait for it before it tells a write."""
        at = ["-h", "127.0.0.1", "-p", str(self.ports[PRIMARY]), "-U", USER]
        self.run("pg_basebackup", "-D", self.data(STANDBY), *at, "-R", "-X", "stream", "-c", "fast", "--no-sync")
        self.start(STANDBY)
        self.ask(PRIMARY, "ALTER SYSTEM SET synchronous_standby_names = '*'")
        self.ask(PRIMARY, "SELECT pg_reload_conf()")
        self.wait_for(PRIMARY, "SELECT count(*) FROM pg_stat_replication WHERE sync_state = 'sync'", "1")

    def start(self, server: int) -> None:
        """Starts a server, and waits until it answers."""
        words = [tool("postgres", PLACES) or "postgres", "-D", self.data(server)]
        for line in CONFIGURED.format(port=self.ports[server]).strip().splitlines():
            name, _, value = line.partition(" = ")
            words += ["-c", f"{name}={value.strip(chr(39))}"]
        with (self.folder / f"d{server}.log").open("ab") as log:
            how = {"stdin": subprocess.DEVNULL, "stdout": log, "stderr": log, "start_new_session": True}
            how["preexec_fn"] = end_with_parent
            self.processes[server] = subprocess.Popen(words, user=RUNNER, **how)  # type: ignore[call-overload]
        self.wait_for(server, "SELECT 1", "1")

    def wait_for(self, server: int, text: str, wanted: str) -> None:
        """Waits until a server answers so."""
        until = time.monotonic() + READY_SECONDS
        while True:
            with contextlib.suppress(SystemExit):
                if self.ask(server, text) == wanted:
                    return
            if time.monotonic() > until:
                log = (self.folder / f"d{server}.log").read_text(errors="replace")
                raise SystemExit(f"a server of PostgreSQL doesn't come up: {log[-1000:]}")
            time.sleep(PAUSE)

    def kill(self, server: int) -> None:
        """Kills a server and all its processes at once, as a power cut does."""
        process = self.processes.pop(server)
        for pid in [process.pid, *children(process.pid)]:
            with contextlib.suppress(ProcessLookupError):
                os.kill(pid, signal.SIGKILL)
        process.wait()

    def signal(self, server: int, number: int) -> None:
        """Sends a server and its processes a signal."""
        pid = self.processes[server].pid
        for each in [pid, *children(pid)]:
            with contextlib.suppress(ProcessLookupError):
                os.kill(each, number)

    def promote(self) -> None:
        """Has the standby take writes."""
        self.ask(STANDBY, "SELECT pg_promote()")

    def processor_seconds(self) -> float:
        """The time of the processor that the servers have taken. That of ended processes is their parents'."""
        total = 0.0
        for process in self.processes.values():
            for pid in [process.pid, *children(process.pid)]:
                with contextlib.suppress(OSError):
                    total += processor_seconds(pid)
        return total

    def stop(self) -> None:
        """Ends the servers, and removes what they kept."""
        for server in list(self.processes):
            self.signal(server, signal.SIGCONT)
            self.kill(server)
        shutil.rmtree(self.folder, ignore_errors=True)

    def __enter__(self) -> "Databases":
        return self

    def __exit__(self, kind: type[BaseException] | None, error: BaseException | None, at: TracebackType | None) -> None:
        self.stop()
