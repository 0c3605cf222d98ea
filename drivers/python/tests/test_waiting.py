"""Each wait of a client ends when its caller said, and what that leaves is told; a statement is sent once."""

import fcntl
import os
import signal
import socket
import subprocess
import threading
import time
import unittest
from collections import Counter
from collections.abc import Callable
from pathlib import Path

from helpers import TOP, engine_of, piql
from pipes import RECORDING, PipeCase, listener_of, program_of
from piql.frames import GREETING, HELLO, REPORT, read_frame, write_frame
from piql.hosts import HostLink, MemoryStore
from piql.links import FileLink, MemoryLink
from piql.scripts import pieces
from piql.socketlink import SocketLink

STEP = 0.3
WRITE = b"INSERT INTO t VALUES (1);"
# No test here waits longer where a limit is kept, also on a machine that does much else.
SOON = 20.0


class EngineTest(PipeCase):
    """An engine that stands still."""

    def stopped(self, connection: piql.Connection) -> subprocess.Popen[bytes]:
        """The engine of a connection, which is stopped."""
        process = engine_of(connection).process
        process.send_signal(signal.SIGSTOP)
        return process

    def ends(self, connection: piql.Connection, text: str) -> str:
        """What is told of a statement that ends by its limit."""
        begun = time.monotonic()
        with self.assertRaises(piql.OperationalError) as caught:
            connection.execute(text)
        self.assertLess(time.monotonic() - begun, SOON)
        return str(caught.exception)

    def test_a_statement(self) -> None:
        connection = self.open(step=STEP)
        for text, stands in (("INSERT INTO t VALUES (1)", "whole or not at all"), ("RUN q", "changes nothing")):
            process = self.stopped(connection)
            told = self.ends(connection, text)
            self.assertIn("stood still for 0.3 seconds, so the run was ended", told)
            self.assertIn(stands, told)
            self.assertIsNotNone(process.poll())
            self.assertEqual(connection.execute("RUN q").fetchall(), [])

    def test_a_pipe_that_is_full(self) -> None:
        connection = self.open(step=STEP)
        fcntl.fcntl(engine_of(connection).into, fcntl.F_SETPIPE_SZ, 4096)
        self.stopped(connection)
        self.assertIn("stood still", self.ends(connection, f"RUN q ('{'x' * 60_000}')"))

    def test_an_end(self) -> None:
        connection = self.open(step=STEP)
        process, begun = self.stopped(connection), time.monotonic()
        connection.close()
        self.assertLess(time.monotonic() - begun, SOON)
        self.assertEqual(process.poll(), -signal.SIGKILL)

    def test_the_time_of_a_statement(self) -> None:
        connection = self.open(step=SOON)
        self.assertEqual(connection.execute("RUN q", timeout=SOON).fetchall(), [])
        process = self.stopped(connection)
        with self.assertRaises(piql.OperationalError) as caught:
            connection.execute("INSERT INTO t VALUES (1)", timeout=STEP)
        self.assertIn("the statement's time was over, so the run was ended", str(caught.exception))
        self.assertIn("whole or not at all", str(caught.exception))
        self.assertIsNotNone(process.poll())
        # The limit was that statement's alone.
        self.assertEqual(connection.execute("RUN q").fetchall(), [])
        self.assertIn("nothing was made of it", self.untold(connection, 0))

    def untold(self, connection: piql.Connection, timeout: float) -> str:
        """What is told of a statement that isn't sent in time."""
        self.sent()
        with self.assertRaises(piql.OperationalError) as caught:
            connection.execute("RUN q", timeout=timeout)
        self.assertEqual(self.sent(), b"")
        return str(caught.exception)

    def test_the_time_behind_another_thread(self) -> None:
        connection, told = self.open(), []
        with connection._lock:
            thread = threading.Thread(target=lambda: told.append(self.untold(connection, STEP)))
            thread.start()
            thread.join(SOON)
        self.assertIn("nothing was made of it", str(told))
        self.assertEqual(connection.execute("RUN q").fetchall(), [])

    def test_the_time_over_a_host(self) -> None:
        link = HostLink("a store", MemoryStore(), program_of(self, "stub_engine.py"), 5.0, SOON)
        self.addCleanup(link.close)
        begun = time.monotonic()
        with self.assertRaises(piql.OperationalError) as caught:
            link.exchange(b"HANG;", False, STEP)
        self.assertLess(time.monotonic() - begun, SOON)
        self.assertIn("the statement's time was over, so the run was ended", str(caught.exception))

    def test_a_store_in_memory(self) -> None:
        link = MemoryLink(RECORDING, STEP)
        self.addCleanup(link.close)
        assert link.engine is not None
        link.engine.process.send_signal(signal.SIGSTOP)  # type: ignore[attr-defined]
        with self.assertRaises(piql.OperationalError) as caught:
            link.exchange(WRITE, False)
        self.assertIn("rows in memory are lost", str(caught.exception))

    def test_limits_that_are_none(self) -> None:
        for name in ("step", "timeout"):
            for given in ("1", -1, float("nan")):
                with self.subTest(name=name, given=given), self.assertRaises(piql.InterfaceError):
                    self.open(**{name: given})
        self.open(step=float("inf"), timeout=float("inf")).execute("SHOW")


class Slow:
    """A server that says hello and then sends its answers byte by byte, or nothing."""

    def __init__(self, case: unittest.TestCase, is_mute: bool, pause: float = 0.0) -> None:
        self.is_mute, self.pause = is_mute, pause
        self.asked: Counter[bytes] = Counter()
        self.path = listener_of(case, self.serve)

    def serve(self, listener: socket.socket) -> None:
        """Takes clients."""
        while True:
            try:
                client, _ = listener.accept()
            except OSError:
                return
            threading.Thread(target=self.answer, args=(client,), daemon=True).start()

    def answer(self, client: socket.socket) -> None:
        """Answers one client."""
        report = b"1 ok bound 1 1 used 1 0\n"
        frame = (len(report) + 1).to_bytes(4) + REPORT + report
        try:
            if not self.is_mute:
                write_frame(client, HELLO, GREETING)
            while True:
                self.asked[read_frame(client)[1]] += 1
                for at in range(len(frame) if self.pause else 1):
                    client.sendall(frame[at : at + 1] if self.pause else frame)
                    time.sleep(self.pause)
        except Exception:
            client.close()


class SocketTest(unittest.TestCase):
    """A server that stands still."""

    def test_a_server_that_says_nothing(self) -> None:
        server, begun = Slow(self, True), time.monotonic()
        with self.assertRaises(piql.OperationalError) as caught:
            piql.connect(f"unix:{server.path}", timeout=STEP)
        self.assertLess(time.monotonic() - begun, SOON)
        self.assertIn("says nothing", str(caught.exception))

    def test_bytes_that_come_slowly(self) -> None:
        link = SocketLink(Slow(self, False, 0.1).path, 5.0, 0.5)
        self.addCleanup(link.close)
        for reads, stands in ((False, "made or not made"), (True, "changes nothing")):
            begun = time.monotonic()
            with self.assertRaises(piql.OperationalError) as caught:
                link.exchange(WRITE, reads)
            self.assertLess(time.monotonic() - begun, SOON)
            self.assertIn("no report for 0.5 seconds", str(caught.exception))
            self.assertIn(stands, str(caught.exception))


    def test_the_time_of_a_statement(self) -> None:
        link = SocketLink(Slow(self, False, 0.1).path, 5.0)
        self.addCleanup(link.close)
        with self.assertRaises(piql.OperationalError) as caught:
            link.exchange(WRITE, False, 0.25)
        self.assertIn("no report for 0.25 seconds", str(caught.exception))


class StoppedServerTest(PipeCase):
    """piql-serve itself, stopped."""

    def test_a_statement(self) -> None:
        at = self.folder / "socket"
        words = [TOP / "bin/piql-serve", self.folder / "store.db", at, "--program", RECORDING]
        server = subprocess.Popen(words, stdout=subprocess.PIPE, stderr=subprocess.DEVNULL)
        self.addCleanup(server.communicate)
        self.addCleanup(server.kill)
        assert server.stdout is not None
        server.stdout.readline()
        with piql.connect(f"unix:{at}", step=STEP, timeout=STEP) as connection:
            connection.execute("INSERT INTO t VALUES (1)")
            server.send_signal(signal.SIGSTOP)
            begun = time.monotonic()
            with self.assertRaises(piql.OperationalError) as caught:
                connection.execute("INSERT INTO t VALUES (2)")
            self.assertIn("made or not made", str(caught.exception))
            with self.assertRaises(piql.OperationalError):
                connection.execute("RUN q")
            self.assertLess(time.monotonic() - begun, SOON)


class Interrupt:
    """Raises an exception of each kind by a signal's handler, again and again, at moments that the timer chooses."""

    KINDS = (TimeoutError, ConnectionResetError, BrokenPipeError, BlockingIOError, OSError, ZeroDivisionError)

    def __init__(self, case: unittest.TestCase, seconds: float) -> None:
        self.count, self.runs, self.seconds, self.is_armed = 0, 0, seconds, False
        before = signal.signal(signal.SIGALRM, self.handle)
        case.addCleanup(signal.signal, signal.SIGALRM, before)
        case.addCleanup(signal.setitimer, signal.ITIMER_REAL, 0)

    def handle(self, _number: int, _frame: object) -> None:
        if not self.is_armed:
            return
        self.count += 1
        raise self.KINDS[self.count % len(self.KINDS)]("by a handler")

    def during(self, run: Callable[[], object]) -> bool:
        """Runs something with a signal on its way; whether it came to its end."""
        try:
            try:
                self.is_armed = True
                # From times in which nothing is done yet to some in which all is, also on a machine that does much else.
                signal.setitimer(signal.ITIMER_REAL, self.seconds * 2 ** (self.runs % 16))
                self.runs += 1
                run()
                return True
            finally:
                self.is_armed = False
        except self.KINDS as error:
            if error.args != ("by a handler",):
                raise
            return False


class SentOnceTest(PipeCase):
    """A write reaches its engine once, whatever interrupts the wait for its report."""

    def test_over_a_socket(self) -> None:
        server = Slow(self, False)
        link, interrupt = SocketLink(server.path, 5.0), Interrupt(self, 0.00005)
        self.addCleanup(link.close)
        told = [self.was_told(interrupt, link, number) for number in range(3000)]
        link.close()
        self.assertGreater(interrupt.count, 100)
        self.assertGreater(told.count(True), 100)
        self.assertEqual(set(server.asked.values()), {1})
        self.assertLessEqual({it for it, is_told in enumerate(told) if is_told}, self.numbers(server.asked))

    def was_told(self, interrupt: Interrupt, link: SocketLink | FileLink, number: int) -> bool:
        """Whether a write was told."""
        return interrupt.during(lambda: link.exchange(b"INSERT INTO t VALUES (%d);" % number, False))

    def numbers(self, texts: Counter[bytes]) -> set[int]:
        """The numbers that were inserted."""
        return {int(text.split(b"(")[1].split(b")")[0]) for text in texts}

    def test_over_a_file(self) -> None:
        connection, interrupt = self.open(), Interrupt(self, 0.00002)
        link = connection.link()
        assert isinstance(link, FileLink)
        told = [self.was_told(interrupt, link, number) for number in range(130)]
        connection.close()
        sent = self.sent()
        asked = Counter(sent[it.start : it.end] for it in pieces(sent) if b"INSERT" in sent[it.start : it.end])
        self.assertGreater(interrupt.count, 10)
        self.assertEqual(set(asked.values()), {1})
        self.assertLessEqual({it for it, is_told in enumerate(told) if is_told}, self.numbers(asked))


class ForkTest(PipeCase):
    """A child that is forked holds nothing of its parent's."""

    def exit_of(self, child: int) -> int:
        return os.waitstatus_to_exitcode(os.waitpid(child, 0)[1])

    def test_pipes_and_sockets_are_closed_in_a_child(self) -> None:
        server = Slow(self, False)
        link = SocketLink(server.path, 5.0)
        self.addCleanup(link.close)
        assert link.socket is not None
        engine = engine_of(self.open())
        descriptors = [engine.into, engine.out_of, link.socket.socket.fileno()]
        child = os.fork()
        if child == 0:
            os._exit(sum(not Path(f"/proc/self/fd/{it}").exists() for it in descriptors))
        self.assertEqual(self.exit_of(child), len(descriptors))
        self.assertIn(b"1 ok", link.exchange(WRITE, False).encode())

    def test_an_end_does_not_wait_for_a_child(self) -> None:
        connection = self.open()
        child = os.fork()
        if child == 0:
            time.sleep(SOON)
            os._exit(0)
        begun = time.monotonic()
        connection.close()
        self.assertLess(time.monotonic() - begun, SOON / 2)
        os.kill(child, signal.SIGKILL)
        os.waitpid(child, 0)

    def test_a_child_beside_a_statement_of_a_thread(self) -> None:
        connection = self.open()
        with connection._lock:
            child = os.fork()
            if child == 0:
                signal.alarm(5)
                thread = threading.Thread(target=self.refused, args=(connection,))
                thread.start()
                thread.join()
                os._exit(1)
            self.assertEqual(self.exit_of(child), 7)

    def refused(self, connection: piql.Connection) -> None:
        """Ends a child by 7 where its statement is refused."""
        try:
            connection.execute("SHOW")
        except piql.InterfaceError:
            os._exit(7)
