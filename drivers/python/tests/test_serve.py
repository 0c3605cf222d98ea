"""Many clients on one file: piql-serve, what it refuses, and how its end is told."""

import contextlib
import os
import random
import signal
import socket
import stat
import struct
import subprocess
import threading
import time
import unittest
from pathlib import Path

from helpers import needs_file, needs_speed, new_folder, piql
from piql.frames import BROKEN, REPORT, STATEMENT, read_frame, write_frame
from served import COMMAND, Served, greeted

CLIENTS, WRITES = 16, 10_000
PAGE = "SELECT t.client, t.number FROM t ORDER BY client, number PAGINATE 1000"
SCRIPT = "CREATE TABLE t (client INT, number INT, PRIMARY KEY (client, number));"


@needs_file
class ServeTest(unittest.TestCase):
    """Each test has a server of its own."""

    def setUp(self) -> None:
        folder = new_folder(self)
        self.path, self.at = folder / "store.db", folder / "socket"
        self.server = self.serve()

    def serve(self) -> Served:
        server = Served(self.path, self.at)
        self.addCleanup(server.end)
        return server

    def open(self) -> piql.Connection:
        connection = piql.connect(f"unix:{self.at}", prepare=True)
        self.addCleanup(connection.close)
        return connection

    def raw(self) -> socket.socket:
        """A socket that has been greeted."""
        return greeted(self, self.at)

    def stored(self, connection: piql.Connection) -> list[piql.Row]:
        """All rows."""
        found: list[piql.Row] = []
        after = None
        while not found or after:
            cursor = connection.execute(PAGE, after=after)
            found += cursor.fetchall()
            after = cursor.next_page
        return found

    @needs_speed
    def test_each_report_that_said_ok_is_in_the_file(self) -> None:
        self.open().cursor().executescript(SCRIPT)
        made: list[piql.Row] = []

        def write(client: int) -> None:
            connection = self.open()
            for number in range(WRITES // CLIENTS):
                connection.execute("INSERT INTO t VALUES (?, ?)", (client, number))
                made.append((client, number))

        threads = [threading.Thread(target=write, args=(client,)) for client in range(CLIENTS)]
        for thread in threads:
            thread.start()
        for thread in threads:
            thread.join()
        self.assertEqual(len(made), WRITES)
        self.assertEqual(self.stored(self.open()), sorted(made))
        self.assertEqual(self.server.end()[0], 0)
        with piql.connect(self.path, prepare=True) as connection:
            self.assertEqual(self.stored(connection), sorted(made))

    def test_a_client_that_goes_away(self) -> None:
        self.open().cursor().executescript(SCRIPT)
        for text in (b"", b"\0\0", struct.pack("!I", 100) + b"SINSERT INTO t VALUES (1"):
            client = self.raw()
            client.sendall(text)
            client.close()
        client = self.raw()
        write_frame(client, STATEMENT, b"INSERT INTO t VALUES (7, 7);")
        client.close()
        other = self.open()
        other.execute("INSERT INTO t VALUES (8, 8)")
        self.assertIn(other.execute(PAGE).fetchall(), ([(7, 7), (8, 8)], [(8, 8)]))

    def test_broken_frames(self) -> None:
        broken = [
            struct.pack("!I", 0),
            struct.pack("!I", 70_000) + b"S",
            struct.pack("!I", 5) + b"?SHOW",
            struct.pack("!I", 5) + b"SSHOW",
            struct.pack("!I", 11) + b"SSHOW;SHOW;",
            struct.pack("!I", 2) + b"S;",
            b"GET / HTTP/1.1\r\n\r\n",
        ]
        for text in broken:
            with self.subTest(text):
                client = self.raw()
                client.sendall(text)
                self.assertEqual(read_frame(client)[0], BROKEN)
                with contextlib.suppress(ConnectionResetError):
                    self.assertEqual(client.recv(1), b"")
        client = self.raw()
        write_frame(client, STATEMENT, b"SHOW;")
        self.assertEqual(read_frame(client)[0], REPORT)

    def test_a_second_server(self) -> None:
        second = subprocess.run([COMMAND, self.path, f"{self.at}2"], capture_output=True, text=True)
        self.assertEqual(second.returncode, 1)
        self.assertIn("another process has", second.stderr)
        other = subprocess.run([COMMAND, f"{self.path}2", self.at], capture_output=True, text=True)
        self.assertEqual(other.returncode, 1)
        self.assertIn("a server listens", other.stderr)
        self.open().execute("SHOW")

    def test_only_the_owner_may_connect(self) -> None:
        self.assertEqual(stat.S_IMODE(self.at.stat().st_mode), 0o600)
        if os.geteuid() != 0:
            self.skipTest("another user can be tried by root alone")
        os.chmod(self.at, 0o666)
        os.chmod(self.at.parent, 0o777)
        child = os.fork()
        if child == 0:
            os.setgroups([])
            os.setgid(65534)
            os.setuid(65534)
            os._exit(7 if self.first_frame() == BROKEN else 1)
        self.assertEqual(os.waitstatus_to_exitcode(os.waitpid(child, 0)[1]), 7)

    def first_frame(self) -> bytes:
        """The kind of the server's first frame."""
        with socket.socket(socket.AF_UNIX) as made:
            made.connect(str(self.at))
            return read_frame(made)[0]

    def test_a_server_that_is_stopped_and_started(self) -> None:
        connection = self.open()
        connection.cursor().executescript(SCRIPT)
        for number, ending in enumerate((signal.SIGTERM, signal.SIGKILL)):
            self.server.end(ending)
            self.server = self.serve()
            connection.execute("INSERT INTO t VALUES (1, ?)", (number,))
        self.assertEqual(connection.execute(PAGE).fetchall(), [(1, 0), (1, 1)])
        self.server.end()
        with self.assertRaises(piql.OperationalError):
            piql.connect(f"unix:{self.at}", timeout=0)

    def test_a_write_whose_report_is_lost(self) -> None:
        connection = self.open()
        connection.cursor().executescript(SCRIPT)
        source = random.Random(4)
        numbers = iter(range(10**9))
        # Numbers whose write was reported, whose report was lost, and that no server was there for.
        made: list[int] = []
        lost: list[int] = []
        unsent: list[int] = []
        for _ in range(3):
            killer = threading.Timer(0.05 + 0.1 * source.random(), self.server.process.kill)
            killer.start()
            with self.assertRaises(piql.OperationalError) as caught:
                while True:
                    number = next(numbers)
                    connection.execute("INSERT INTO t VALUES (0, ?)", (number,))
                    made.append(number)
            killer.join()
            (lost if "made or not made" in str(caught.exception) else unsent).append(number)
            self.server = self.serve()
        stored = {number for _, number in self.stored(connection)}
        self.assertLessEqual(set(made), stored)
        self.assertLessEqual(stored, {*made, *lost})

    def test_an_engine_that_is_killed(self) -> None:
        connection = self.open()
        connection.cursor().executescript(SCRIPT)
        os.kill(self.server.engine(), signal.SIGKILL)
        with self.assertRaises(piql.OperationalError) as caught:
            connection.execute("INSERT INTO t VALUES (1, 1)")
        self.assertEqual(caught.exception.status, -signal.SIGKILL)
        self.assertEqual(connection.execute(PAGE).fetchall(), [])

    def test_a_copy_while_clients_go_on(self) -> None:
        connection = self.open()
        connection.cursor().executescript(SCRIPT)
        stop = threading.Event()
        made: list[piql.Row] = []

        def write() -> None:
            other = self.open()
            while not stop.is_set():
                other.execute("INSERT INTO t VALUES (5, ?)", (len(made),))
                made.append((5, len(made)))

        writer = threading.Thread(target=write)
        writer.start()
        time.sleep(0.3)
        before = len(made)
        copy = self.path.with_name("copy.db")
        connection.backup(copy)
        after = len(made) + 1
        stop.set()
        writer.join()
        self.assertEqual(sorted(it.name for it in copy.parent.glob("copy*")), ["copy.db"])
        with piql.connect(copy, prepare=True) as other:
            rows = self.stored(other)
        self.assertEqual(rows, [(5, number) for number in range(len(rows))])
        self.assertTrue(before <= len(rows) <= after)
        with self.assertRaises(piql.OperationalError):
            connection.backup(copy)
