"""The clients of piql-serve: those that are silent, stand still or are too many, and what the end leaves them."""

import contextlib
import json
import os
import resource
import select
import signal
import stat
import struct
import subprocess
import time
import unittest
from pathlib import Path

from helpers import piql
from piql.frames import BACKUP, BROKEN, ENDED, HELLO, REPORT, STATEMENT, read_frame, write_frame
from piql.server.coming import OWN_DESCRIPTORS, PAUSE, Coming, room_for
from piql.server.figures import Figures
from piql.server.log import Log
from piql.server.rights import Place
from piql.server.sockets import Listener
from piql.server.watch import Watch
from served import COMMAND, Served, ServedCase, asked, connected, greeted, stubs_of

WRITE = "INSERT INTO t VALUES (1, 'x');"
# More than a socket keeps.
MUCH = "RUN rows_100000 ();"


class SilenceTest(ServedCase):
    """Clients that don't move, beside one that does."""

    def setUp(self) -> None:
        super().setUp()
        self.server = self.serve("--idle", 0.7)
        self.begun = time.monotonic()

    def test_a_silent_one_is_let_go(self) -> None:
        client, busy = greeted(self, self.at), greeted(self, self.at)
        while time.monotonic() < self.begun + 1.4:
            self.assertEqual(asked(busy, WRITE)[0], REPORT)
            time.sleep(0.1)
        self.assertIn("nothing came", self.left(client))
        with self.assertRaises(BrokenPipeError):
            client.sendall(b"\0")

    def test_the_driver_connects_again_by_itself(self) -> None:
        connection = piql.connect(f"unix:{self.at}", prepare=False)
        self.addCleanup(connection.close)
        for number in range(2):
            time.sleep(1.1)
            connection.execute("INSERT INTO t VALUES (?, 'x')", (number,))
        self.assertEqual(len(self.made()), 2)

    def test_what_is_sent_to_a_silent_end_fails_or_is_made(self) -> None:
        clients = [greeted(self, self.at) for _ in range(60)]
        sent, answered = 0, 0
        for i, client in enumerate(clients):
            time.sleep(max(0.0, self.begun + 0.6 + i * 0.005 - time.monotonic()))
            try:
                write_frame(client, STATEMENT, f"INSERT INTO t VALUES ({i}, 'x');".encode())
            except BrokenPipeError:
                continue
            sent += 1
            answered += read_frame(client)[0] == REPORT
        self.assertEqual((answered, len(self.made())), (sent, sent))

    def test_one_in_the_middle_of_a_frame_is_let_go_even_if_it_dribbles(self) -> None:
        client = greeted(self, self.at)
        client.sendall(struct.pack("!I", 1000) + b"S")
        with self.assertRaises(BrokenPipeError):
            while time.monotonic() < self.begun + 20:
                client.sendall(b" ")
                time.sleep(0.1)
        self.assertIn("wasn't whole", self.left(client))

    def test_one_that_never_reads_holds_nobody_up(self) -> None:
        deaf, other = greeted(self, self.at), greeted(self, self.at)
        write_frame(deaf, STATEMENT, MUCH.encode())
        for _ in range(20):
            self.assertEqual(asked(other, WRITE)[0], REPORT)
            time.sleep(0.1)
        length = 0
        with contextlib.suppress(ConnectionResetError):
            while part := deaf.recv(1 << 20):
                length += len(part)
        self.assertLess(length, 1_000_000)

    def test_one_that_waits_for_its_answer_is_not_silent(self) -> None:
        client = greeted(self, self.at)
        self.assertEqual(asked(client, "RUN wait_1500 ();")[0], REPORT)


class ManyTest(ServedCase):
    """Clients that are too many, for the server or for the system."""

    def test_the_limit_of_clients(self) -> None:
        self.serve("--clients", 3)
        clients = [greeted(self, self.at) for _ in range(3)]
        self.assertIn("there are 3 clients already", self.left(connected(self, self.at)))
        clients.pop().close()
        self.assertEqual(self.next_one(), HELLO)

    def next_one(self) -> bytes:
        """The first frame of a client that comes while others are going."""
        until = time.monotonic() + 20
        while (kind := read_frame(connected(self, self.at))[0]) == BROKEN and time.monotonic() < until:
            time.sleep(0.05)
        return kind

    def test_few_descriptors(self) -> None:
        self.serve(limits="ulimit -n 40")
        clients = [connected(self, self.at) for _ in range(40)]
        kinds = [read_frame(client)[0] for client in clients]
        self.assertEqual(kinds, [HELLO] * (39 - OWN_DESCRIPTORS) + [BROKEN] * (OWN_DESCRIPTORS + 1))
        self.assertEqual(asked(clients[0], WRITE)[0], REPORT)
        for client in clients:
            client.close()
        self.assertEqual(self.next_one(), HELLO)

    def test_the_soft_limit_is_raised(self) -> None:
        self.serve("--clients", 50, limits="ulimit -Sn 40")
        self.assertEqual({read_frame(connected(self, self.at))[0] for _ in range(50)}, {HELLO})

    def test_too_few_descriptors_are_told_at_the_start(self) -> None:
        server = Served(self.store, self.at, program=self.program, limits="ulimit -n 26")
        status, errors = server.end()
        self.assertEqual(status, 1)
        self.assertIn("no descriptors", errors)

    def test_clients_are_taken_again_once_there_are_descriptors(self) -> None:
        listener = Listener(Place(str(self.at)))
        nowhere = os.open(os.devnull, os.O_WRONLY)
        self.addCleanup(os.close, nowhere)
        coming = Coming([listener], room_for(5, 1), Watch(Log("error", nowhere), Figures()))
        waiting = connected(self, self.at)
        before = resource.getrlimit(resource.RLIMIT_NOFILE)
        self.addCleanup(resource.setrlimit, resource.RLIMIT_NOFILE, before)
        resource.setrlimit(resource.RLIMIT_NOFILE, (3, before[1]))
        descriptor = listener.socket.fileno()
        self.assertEqual(coming.taken(descriptor, 0), [])
        resource.setrlimit(resource.RLIMIT_NOFILE, before)
        self.assertEqual(coming.wanted(time.monotonic()), {descriptor: 0})
        self.assertEqual(coming.wanted(time.monotonic() + PAUSE), {descriptor: select.EPOLLIN})
        (client,) = coming.taken(descriptor, 0)
        self.assertEqual(read_frame(waiting)[0], HELLO)
        client.close()
        coming.close()


class EndTest(ServedCase):
    """A stop."""

    def test_silent_clients_hold_no_stop_up(self) -> None:
        server = self.serve()
        clients = [greeted(self, self.at) for _ in range(50)]
        begun = time.monotonic()
        self.assertEqual(server.end()[0], 0)
        self.assertLess(time.monotonic() - begun, 4)
        self.assertIn("stops", self.left(clients[0]))

    def test_what_was_sent_before_is_made(self) -> None:
        server = self.serve()
        clients = [greeted(self, self.at) for _ in range(20)]
        write_frame(clients[0], STATEMENT, b"RUN wait_1000 ();")
        for client in clients[1:]:
            write_frame(client, STATEMENT, WRITE.encode())
        server.process.send_signal(signal.SIGTERM)
        self.assertEqual({read_frame(client)[0] for client in clients}, {REPORT})
        self.assertEqual((server.end()[0], len(self.made())), (0, 19))

    def test_an_engine_that_stands_still_in_a_statement(self) -> None:
        server = self.serve()
        first, second = greeted(self, self.at), greeted(self, self.at)
        write_frame(first, STATEMENT, b"RUN hang ();")
        time.sleep(0.3)
        write_frame(second, STATEMENT, WRITE.encode())
        engine = server.engine()
        begun = time.monotonic()
        self.assertEqual(server.end()[0], 0)
        self.assertLess(time.monotonic() - begun, 15)
        kind, text = read_frame(first)
        self.assertEqual((kind, json.loads(text)["status"]), (ENDED, -signal.SIGKILL))
        kind, text = read_frame(second)
        self.assertEqual(kind, ENDED)
        self.assertIn("it wasn't made", json.loads(text)["text"])
        self.assertEqual(self.made(), [])
        with self.assertRaises(ProcessLookupError):
            os.kill(engine, 0)

    def test_an_engine_that_is_still_opening_the_store(self) -> None:
        Path(f"{self.store}.slow").write_text("3600")
        words = [str(COMMAND), str(self.store), str(self.at), "--program", str(self.program)]
        process = subprocess.Popen(words, stdout=subprocess.PIPE, stderr=subprocess.PIPE)
        self.addCleanup(process.communicate)
        self.addCleanup(process.kill)
        until = time.monotonic() + 30
        # Before it serves, the command has children that are no engines.
        while not (found := stubs_of(process.pid)) and time.monotonic() < until:
            time.sleep(0.02)
        process.terminate()
        self.assertEqual(process.wait(15), 0)
        with self.assertRaises(ProcessLookupError):
            os.kill(found[0], 0)

    def test_an_engine_that_is_stopped_between_statements(self) -> None:
        server = self.serve()
        engine = server.engine()
        os.kill(engine, signal.SIGSTOP)
        begun = time.monotonic()
        self.assertEqual(server.end()[0], 0)
        self.assertLess(time.monotonic() - begun, 15)
        with self.assertRaises(ProcessLookupError):
            os.kill(engine, 0)


class RequestTest(ServedCase):
    """What the requests are taken for."""

    def test_a_read_changes_nothing(self) -> None:
        self.serve()
        client = greeted(self, self.at)
        for statement in ("READ exit_7 ();", "-- a comment\n\tread exit_7 ();", "RUN exit_7 ();"):
            with self.subTest(statement):
                kind, text = asked(client, statement)
                self.assertEqual(kind, ENDED)
                self.assertIn("This statement changes nothing", json.loads(text)["text"])

    def test_the_path_of_a_copy(self) -> None:
        self.serve()
        client = greeted(self, self.at)
        for path in (b"/tmp/a\0b", b"/tmp/\xff\xfe", b"relative", b"", b"/" + b"x" * 5000):
            with self.subTest(path):
                write_frame(client, BACKUP, path)
                self.assertEqual(read_frame(client)[0], ENDED)
        self.assertEqual(asked(client, WRITE)[0], REPORT)

    def test_files_are_the_owners_alone(self) -> None:
        self.serve()
        for path in (self.store, self.at):
            self.assertEqual(stat.S_IMODE(path.stat().st_mode), 0o600)


if __name__ == "__main__":
    unittest.main()
