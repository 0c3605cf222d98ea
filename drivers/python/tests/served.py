"""What the tests of the server share: a server as a process, over the engine or over what stands for it."""

import contextlib
import os
import signal
import socket
import subprocess
import sys
import unittest
from pathlib import Path

from helpers import TOP, new_folder
from piql.frames import BROKEN, HELLO, STATEMENT, read_frame, write_frame

COMMAND = TOP / "bin/piql-serve"
STUB = Path(__file__).with_name("stub_file.py")
# A marked value, and statements that have it wherever a value, a name or anything else may stand.
MARK = "mArKeD"
MARKED = (
    f"INSERT INTO t VALUES (1, '{MARK}');",
    f"INSERT INTO t VALUES (1, 'twice {MARK}');",
    f"UPDATE {MARK} SET b = '{MARK}' WHERE a = 1;",
    f"RUN slow ('{MARK}');",
    f"RUN {MARK} ('{MARK}');",
    f"READ {MARK} ({MARK});",
    f"CREATE TABLE {MARK} ({MARK} INT);",
    f"PREPARE {MARK} AS SELECT {MARK};",
    f"EXPLAIN SELECT '{MARK}';",
    f"-- {MARK}\nSHOW;",
    f"'{MARK}' {MARK};",
    f"{MARK} {MARK};",
    "RUN damage ();",
    "RUN exit_7 ();",
    f"RUN none ('{MARK}');",
)
# For how long a test waits for what has to come, in seconds; the machine may do much else.
LONG = 60.0


class Served:
    """A server as a process, which has written its first line or has ended."""

    def __init__(self, *words: object, program: Path | None = None, limits: str = "") -> None:
        """`limits` is a command of the shell that sets some before the server begins."""
        given = [] if program is None else ["--program", str(program)]
        before = ["sh", "-c", f'{limits}; exec "$@"', "sh"] if limits else []
        path = os.pathsep.join([os.path.dirname(sys.executable), os.environ.get("PATH", "")])
        self.process = subprocess.Popen(
            [*before, str(COMMAND), *map(str, words), *given],
            stdout=subprocess.PIPE,
            stderr=subprocess.PIPE,
            errors="surrogateescape",
            env={**os.environ, "PATH": path},
        )
        assert self.process.stdout is not None
        self.said = self.process.stdout.readline()

    def end(self, number: int = signal.SIGTERM) -> tuple[int, str]:
        """Ends the server by a signal; its status and what it wrote as errors."""
        if self.process.poll() is None:
            self.process.send_signal(number)
        try:
            _, errors = self.process.communicate(timeout=LONG)
        except subprocess.TimeoutExpired:
            self.process.kill()
            _, errors = self.process.communicate()
        return self.process.returncode, errors

    def engine(self) -> int:
        """The process of its engine."""
        found = engines_of(self.process.pid)
        assert found, "the server has no engine"
        return found[0]


def engines_of(server: int) -> list[int]:
    """The processes that a server began."""
    found = []
    for entry in filter(str.isdigit, os.listdir("/proc")):
        with contextlib.suppress(OSError):
            if Path("/proc", entry, "stat").read_text().rpartition(")")[2].split()[1] == str(server):
                found.append(int(entry))
    return found


def stubs_of(server: int) -> list[int]:
    """The engines among them: a command that is still beginning has other children."""
    found = []
    for number in engines_of(server):
        with contextlib.suppress(OSError):
            if str(STUB).encode() in Path("/proc", str(number), "cmdline").read_bytes():
                found.append(number)
    return found


def stub_program(folder: Path) -> Path:
    """What stands for piql_file, as a program."""
    path = folder / "stub_file"
    path.write_text(f'#!/bin/sh\nexec "{sys.executable}" "{STUB}" "$@"\n')
    path.chmod(0o755)
    return path


class ServedCase(unittest.TestCase):
    """Each test has a folder; its servers are over what stands for the engine."""

    def setUp(self) -> None:
        self.folder = new_folder(self)
        self.program = stub_program(self.folder)
        self.store, self.at = self.folder / "site.db", self.folder / "site.socket"

    def serve(self, *words: object, limits: str = "") -> Served:
        """A server that listens."""
        server = Served(self.store, self.at, *words, program=self.program, limits=limits)
        self.addCleanup(server.end)
        self.assertIn(str(self.at), server.said)
        return server

    def made(self) -> list[str]:
        """The statements that were made."""
        path = Path(f"{self.store}.made")
        return path.read_text().splitlines() if path.exists() else []

    def left(self, client: socket.socket) -> str:
        """Why a client is left; no more comes behind it."""
        kind, text = read_frame(client)
        self.assertEqual(kind, BROKEN)
        with contextlib.suppress(ConnectionResetError):
            self.assertEqual(client.recv(1), b"")
        return text.decode()


def connected(case: unittest.TestCase, at: Path) -> socket.socket:
    """A client that has no driver, and hasn't been greeted yet."""
    made = socket.socket(socket.AF_UNIX)
    case.addCleanup(made.close)
    made.settimeout(LONG)
    made.connect(str(at))
    return made


def greeted(case: unittest.TestCase, at: Path) -> socket.socket:
    """A client that has been greeted."""
    made = connected(case, at)
    case.assertEqual(read_frame(made)[0], HELLO)
    return made


def asked(client: socket.socket, statement: str) -> tuple[bytes, str]:
    """The kind and the text of the answer to a statement."""
    write_frame(client, STATEMENT, statement.encode())
    kind, text = read_frame(client)
    return kind, text.decode()
