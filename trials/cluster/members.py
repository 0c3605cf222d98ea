"""Members of etcd on loopback: they are started, killed and started again by their process ids, and leave nothing."""

import contextlib
import ctypes
import json
import os
import pathlib
import shutil
import signal
import socket
import subprocess
import tempfile
import time
import urllib.error
import urllib.request
from types import TracebackType

READY_SECONDS = 180.0
PAUSE = 0.05
LIBRARY = ctypes.CDLL(None)
# Linux's number for asking that a signal comes when the parent ends.
PARENT_DEATH_SIGNAL = 1


def end_with_parent() -> None:
    """Asks, in a server's process, that it is killed when the trial is, however that ends."""
    LIBRARY.prctl(PARENT_DEATH_SIGNAL, signal.SIGKILL)


def free_ports(number: int) -> list[int]:
    """Ports of loopback that nobody listens at."""
    sockets = [socket.create_server(("127.0.0.1", 0)) for _ in range(number)]
    ports = [made.getsockname()[1] for made in sockets]
    for made in sockets:
        made.close()
    return ports


def tool(name: str, places: tuple[str, ...] = ()) -> str | None:
    """A program, in one of the places or on the PATH."""
    return shutil.which(name, path=os.pathsep.join(places)) or shutil.which(name)


class Members:
    """So many members of one cluster, each a process with a folder of its own."""

    def __init__(self, number: int = 3, name: str = "piql") -> None:
        self.folder = pathlib.Path(tempfile.mkdtemp(prefix="piql-etcd-"))
        ports = free_ports(2 * number)
        self.clients, self.peers = ports[:number], ports[number:]
        self.name = name
        self.processes: dict[int, subprocess.Popen[bytes]] = {}
        try:
            for member in range(number):
                self.start(member)
            self.wait()
        except BaseException:
            self.stop()
            raise

    @property
    def endpoints(self) -> list[str]:
        """Where each member answers."""
        return [f"127.0.0.1:{port}" for port in self.clients]

    def url(self, name: str, first: int = 0) -> str:
        """What `piql.connect` takes for a store of this name, with this member asked first."""
        return f"etcd://{','.join(self.endpoints[first:] + self.endpoints[:first])}/{name}"

    def words(self, member: int) -> list[str]:
        """The command of a member."""
        client, peer = (f"http://127.0.0.1:{ports[member]}" for ports in (self.clients, self.peers))
        cluster = ",".join(f"m{other}=http://127.0.0.1:{port}" for other, port in enumerate(self.peers))
        words = [tool("etcd") or "etcd", "--name", f"m{member}", "--data-dir", str(self.folder / f"m{member}")]
        words += ["--listen-client-urls", client, "--advertise-client-urls", client, "--listen-peer-urls", peer]
        words += ["--initial-advertise-peer-urls", peer, "--initial-cluster", cluster, "--initial-cluster-state", "new"]
        return [*words, "--initial-cluster-token", self.folder.name, "--logger", "zap", "--log-level", "error"]

    def start(self, member: int) -> None:
        """Starts a member, or starts it again over what it has kept."""
        with (self.folder / f"m{member}.log").open("ab") as log:
            how = {"stdin": subprocess.DEVNULL, "stdout": log, "stderr": log, "start_new_session": True}
            how["preexec_fn"] = end_with_parent
            self.processes[member] = subprocess.Popen(self.words(member), **how)  # type: ignore[call-overload]

    def wait(self) -> None:
        """Waits until each member that runs is well."""
        until = time.monotonic() + READY_SECONDS
        while not all(self.is_well(member) for member in self.processes):
            if time.monotonic() > until:
                logs = [path.read_text(errors="replace")[-500:] for path in self.folder.glob("*.log")]
                raise SystemExit("\n".join(["the members of etcd don't come up:", *logs]))
            time.sleep(PAUSE)

    def is_well(self, member: int) -> bool:
        """Whether a member says so."""
        try:
            with urllib.request.urlopen(f"http://{self.endpoints[member]}/health", timeout=1) as answer:
                return bool(json.load(answer)["health"] == "true")
        except (OSError, ValueError):
            return False

    def leader(self) -> int:
        """The member that leads."""
        until = time.monotonic() + READY_SECONDS
        while time.monotonic() < until:
            for member in self.processes:
                with contextlib.suppress(OSError, ValueError):
                    address = f"http://{self.endpoints[member]}/v3/maintenance/status"
                    with urllib.request.urlopen(urllib.request.Request(address, b"{}"), timeout=2) as answer:
                        told = json.load(answer)
                    if told.get("leader") == told["header"]["member_id"]:
                        return member
            time.sleep(PAUSE)
        raise SystemExit("no member of etcd leads")

    def signal(self, member: int, number: int) -> None:
        """Sends a member a signal."""
        self.processes[member].send_signal(number)

    def kill(self, member: int) -> None:
        """Kills a member."""
        process = self.processes.pop(member)
        process.kill()
        process.wait()

    def processor_seconds(self) -> float:
        """The time of the processor that the members have taken."""
        return sum(processor_seconds(process.pid) for process in self.processes.values())

    def stop(self) -> None:
        """Ends all members, and removes what they kept."""
        for process in self.processes.values():
            with contextlib.suppress(ProcessLookupError):
                process.send_signal(signal.SIGCONT)
                process.kill()
            process.wait()
        self.processes.clear()
        shutil.rmtree(self.folder, ignore_errors=True)

    def __enter__(self) -> "Members":
        return self

    def __exit__(self, kind: type[BaseException] | None, error: BaseException | None, at: TracebackType | None) -> None:
        self.stop()


def processor_seconds(pid: int) -> float:
    """The time of the processor that a process has taken."""
    with open(f"/proc/{pid}/stat") as file:
        fields = file.read().rsplit(")", 1)[1].split()
    return (int(fields[11]) + int(fields[12])) / os.sysconf("SC_CLK_TCK")
