"""The log of piql-serve: its lines, its levels, what never stands in one, and that nobody waits for who reads it."""

import contextlib
import fcntl
import os
import re
import signal
import socket
import time
import tomllib
import unittest
from pathlib import Path
from unittest import mock

from helpers import TOP, piql
from piql.frames import BROKEN, ENDED, REPORT, STATEMENT, read_frame, write_frame
from piql.hosts import HostLink
from piql.server import observed, telling
from piql.server.figures import Figures
from piql.server.log import MOST_A_SECOND, Log
from piql.server.observed import Observed
from piql.server.watch import Watch
from served import MARK, MARKED, ServedCase, asked, connected, greeted

FIELD = r' [a-z_]+=(?:[\w./:+-]+|"(?:[^"\\]|\\.)*")'
LINE = re.compile(rf"time=\S+ level=(error|warning|info|debug) event=([a-z-]+)(?:{FIELD})*")


def events(errors: str) -> list[str]:
    """The events of a log, in order."""
    found = [LINE.fullmatch(line) for line in errors.splitlines()]
    assert all(found), errors
    return [line[2] for line in found if line]


class LogTest(unittest.TestCase):
    """The lines alone, in a pipe."""

    def setUp(self) -> None:
        self.out_of, self.into = os.pipe2(os.O_NONBLOCK)
        self.addCleanup(os.close, self.out_of)
        self.addCleanup(os.close, self.into)

    def read(self) -> list[str]:
        try:
            return os.read(self.out_of, 1 << 20).decode().splitlines()
        except BlockingIOError:
            return []

    def test_a_line(self) -> None:
        log = Log("info", self.into)
        log.warning("slow", name="of_town", seconds=1.5, text='two "words"\n', nothing=None)
        (line,) = self.read()
        head, _, tail = line.partition(" event=")
        self.assertRegex(head, r"^time=\d{4}-\d\d-\d\dT\d\d:\d\d:\d\dZ level=warning$")
        self.assertEqual(tail, r'slow name=of_town seconds=1.500 text="two \"words\"\n"')

    def test_a_line_is_one_whatever_stands_in_it(self) -> None:
        log = Log("debug", self.into)
        for text in ("a\nb", "\x1b[31m", "\udc80", "é" * 5000, "", "x y"):
            log.debug("event", text=text)
            with self.subTest(text[:10]):
                (line,) = self.read()
                self.assertRegex(line, r"^[ -~]+$")

    def test_the_levels(self) -> None:
        wanted = {"error": 1, "warning": 2, "info": 3, "debug": 4}
        for level, count in wanted.items():
            log = Log(level, self.into)
            for write in (log.error, log.warning, log.info, log.debug):
                write("event")
            self.assertEqual(len(self.read()), count)

    def test_nobody_waits_for_who_reads_it(self) -> None:
        fcntl.fcntl(self.into, fcntl.F_SETPIPE_SZ, 4096)
        os.set_blocking(self.into, True)
        log = Log("info", self.into)
        for number in range(10):
            log.info(f"event-{number}", text="x" * 400)
        kept = self.read()
        self.assertLess(len(kept), 10)
        log.info("event-9")
        self.assertRegex(self.read()[0], r"event=event-9 left_out=1$")

    def test_what_comes_too_often_is_counted(self) -> None:
        log = Log("info", self.into)
        with mock.patch("time.monotonic", return_value=7.0):
            for _ in range(MOST_A_SECOND + 5):
                log.info("client-refused")
            log.info("another")
        lines = self.read()
        self.assertEqual(len(lines), MOST_A_SECOND + 1)
        with mock.patch("time.monotonic", return_value=8.0):
            log.info("client-refused")
        self.assertIn("left_out=5", self.read()[0])

    def test_a_lease_that_is_lost_and_taken(self) -> None:
        backend = mock.Mock(lost=None)
        link = mock.create_autospec(HostLink, instance=True, backends=[backend], engine=None)
        store = Observed(link, Watch(Log("info", self.into), Figures()))
        for lost in (None, "another engine has it", "still", None, None):
            backend.lost = lost
            store.keep()
        found = [line.partition("level=")[2] for line in self.read()]
        self.assertEqual(found, ["error event=lease-lost", "info event=lease-taken"])

    def test_an_opening_that_takes_long(self) -> None:
        log = Log("info", self.into)
        with mock.patch.object(telling, "EVERY", 0.05), telling.told_while_opening(log):
            time.sleep(0.3)
        lines = self.read()
        self.assertGreater(len(lines), 1)
        self.assertRegex(lines[0], r"event=opening seconds=0\.\d\d\d$")
        time.sleep(0.2)
        self.assertEqual(self.read(), [])

    def test_a_full_disk(self) -> None:
        log = Log("error", self.into)
        store = Observed(mock.Mock(engine=None), Watch(log, Figures()))
        store.look_for_room("/")
        self.assertEqual(self.read(), [])
        with mock.patch.object(observed, "FULL_BELOW", 1 << 80):
            store.look_for_room("/")
        self.assertRegex(self.read()[0], r"event=disk-full folder=/ free=\d+$")


class EventsTest(ServedCase):
    """What the log of a server tells."""

    def test_the_life_of_a_server(self) -> None:
        server = self.serve("--slow", 3600)
        client = greeted(self, self.at)
        self.assertEqual(asked(client, "RUN exit_5 ();")[0], ENDED)
        self.assertEqual(asked(client, "RUN rows_1 ();")[0], REPORT)
        os.kill(server.engine(), signal.SIGKILL)
        self.assertEqual(asked(client, "RUN rows_1 ();")[0], ENDED)
        self.assertEqual(asked(client, "RUN none ();")[0], REPORT)
        status, errors = server.end()
        self.assertEqual(status, 0)
        lines = errors.splitlines()
        wanted = ["begun", "engine-begun", "engine-ended", "engine-begun", "engine-ended", "engine-begun"]
        self.assertEqual(events(errors), [*wanted, "stopping", "ended"])
        version = tomllib.loads((TOP / "drivers/python/pyproject.toml").read_text())["project"]["version"]
        wanted = f"event=begun version={version} store={self.store} sockets={self.at}:all:600 clients=256"
        self.assertIn(wanted, lines[0])
        self.assertIn('status=5 meaning="a call of the store failed', lines[2])
        self.assertIn("statement=RUN", lines[2])
        self.assertIn('status=-9 meaning="signal 9"', lines[4])
        self.assertIn("signal=SIGTERM", lines[6])
        self.assertRegex(lines[7], r"seconds=\d+\.\d+ statements=2 runs=3$")

    def test_a_slow_statement(self) -> None:
        server = self.serve("--slow", 0.5)
        first, second = greeted(self, self.at), greeted(self, self.at)
        write_frame(first, STATEMENT, b"RUN wait_800 ();")
        write_frame(second, STATEMENT, b"run -- a comment\n SLOW (1);")
        self.assertEqual({read_frame(client)[0] for client in (first, second)}, {REPORT})
        self.assertEqual(asked(second, "RUN rows_1 ();")[0], REPORT)
        _, errors = server.end()
        (line,) = [line for line in errors.splitlines() if "event=slow" in line]
        self.assertRegex(line, r' statement=RUN seconds=0\.[89]\d\d wait=0\.\d\d\d bound="21 40" used="2 2"$')

    def test_the_name_of_a_slow_query(self) -> None:
        server = self.serve("--slow", 0.000001)
        client = greeted(self, self.at)
        for statement in ("INSERT INTO T VALUES (1);", "PREPARE hang AS SELECT ..;", f"RUN {MARK} ();"):
            asked(client, statement)
        with piql.connect(f"unix:{self.at}") as connection:
            connection.cursor().callproc("slow", (1,))
        lines = [line for line in server.end()[1].splitlines() if "event=slow" in line]
        self.assertIn("statement=INSERT name=t ", lines[0])
        self.assertIn("statement=PREPARE name=hang ", lines[1])
        self.assertIn("statement=RUN seconds", lines[2])
        self.assertIn("statement=SHOW seconds", lines[3])
        self.assertIn("statement=RUN name=slow ", lines[4])

    def test_a_rollover(self) -> None:
        server = self.serve()
        client = greeted(self, self.at)
        statement = f"INSERT INTO t VALUES (1, '{'x' * 65_000}');"
        for _ in range(16_777_216 // len(statement) + 1):
            self.assertEqual(asked(client, statement)[0], REPORT)
        _, errors = server.end()
        self.assertIn("event=engine-begun why=rollover runs=2", errors)

    def test_clients_that_are_refused_or_left(self) -> None:
        server = self.serve("--clients", 1, "--idle", 0.5)
        client = greeted(self, self.at)
        self.assertEqual(read_frame(connected(self, self.at))[0], BROKEN)
        self.assertEqual(read_frame(client)[0], BROKEN)
        _, errors = server.end()
        self.assertIn(f'event=client-refused client=2 user={os.geteuid()} why="there is 1 client already"', errors)
        self.assertIn('event=client-left client=1 why="nothing came for 0.5 seconds"', errors)

    def test_the_levels(self) -> None:
        server = self.serve("--log", "error")
        self.assertEqual(asked(greeted(self, self.at), "RUN exit_5 ();")[0], ENDED)
        self.assertEqual(events(server.end()[1]), ["engine-ended"])

    def test_streams_that_are_closed_are_nobody_elses(self) -> None:
        self.serve("--log", "debug", limits="exec 2>&- 0<&-")
        client = greeted(self, self.at)
        for _ in range(3):
            self.assertEqual(asked(client, "RUN rows_1 ();")[0], REPORT)


class MarkedTest(ServedCase):
    """A marked value in all that a client sends stands in no line and no name."""

    def broken(self, data: bytes) -> None:
        """A client that sends what is no frame."""
        client = greeted(self, self.at)
        with contextlib.suppress(OSError):
            client.sendall(data)
            client.shutdown(socket.SHUT_WR)
            read_frame(client)

    def words(self, number: int) -> str:
        """What `ps` shows of a process."""
        return Path(f"/proc/{number}/cmdline").read_bytes().decode() + Path(f"/proc/{number}/comm").read_text()

    def test_no_line_and_no_name_has_it(self) -> None:
        server = self.serve("--log", "debug", "--slow", 0.000001)
        shown = ""
        for statement in MARKED:
            asked(greeted(self, self.at), statement)
            shown += self.words(server.process.pid)
            with contextlib.suppress(AssertionError):
                shown += self.words(server.engine())
        for data in (MARK.encode() * 9, b"\0\0\0\7S" + MARK.encode(), b"\0\0\0\7Z" + MARK.encode()):
            self.broken(data)
        shown += " ".join(path.name for path in self.folder.iterdir())
        _, errors = server.end()
        self.assertGreater(events(errors).count("slow"), 10)
        for text in (MARK, MARK.encode().hex(), b"MARKED".hex()):
            self.assertNotIn(text.lower(), (errors + shown + server.said).lower())


if __name__ == "__main__":
    unittest.main()
