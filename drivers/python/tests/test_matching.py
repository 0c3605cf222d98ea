"""A report is told as that of its statement alone: what is sent is one piece, and what comes is its one report."""

import socket
import unittest
from collections.abc import Callable

from helpers import engine_of, piql
from pipes import RECORDING, PipeCase, listener_of, program_of
from piql.frames import ENDED, GREETING, HELLO, REPORT, read_frame, write_frame
from piql.hosts import HostLink, MemoryStore
from piql.links import Link, MemoryLink
from piql.socketlink import SocketLink
from piql.wholeness import number_of

NUMBERS = "bound 1 1 used 1 0"
NOT_ONE = (b"", b";", b"SHOW", b"SHOW;SHOW;", b"SHOW; ", b"';", b"-- a\n;", b"SHOW;;", b"SHOW;'")
# Each is what an engine writes in place of the report of statement %d. Those with a text behind them write that later.
LIES = [
    (f"%d ok {NUMBERS}\n3 ok {NUMBERS}\n", None),
    (f"1 ok {NUMBERS}\n%d ok {NUMBERS}\n", None),
    (f"3 ok {NUMBERS}\n", None),
    (f"1 ok {NUMBERS}\n", None),
    (f"0%d ok {NUMBERS}\n", None),
    (f"%d ok {NUMBERS}\nrow 7", None),
    (f"%d ok {NUMBERS}\n%d", None),
    ("no line of a report\n", None),
    (f"%d ok\n", None),
    (f"row 'a' 'b'\n%d ok rows 1 {NUMBERS}\n", None),
    (f"row 'a', \n%d ok rows 1 {NUMBERS}\n", None),
    (f"row '\udcff'\n%d ok rows 1 {NUMBERS}\n", None),
    (f"row 1\ndef 1 SHOW;\n%d ok rows 1 {NUMBERS}\n", None),
    (f"row 1\n%d ok rows 2 {NUMBERS}\n", None),
    (f"row 1\nrow 2\n%d ok rows 1 {NUMBERS}\n", None),
    (f"%d ok rows 1 {NUMBERS}\n", None),
    (f"%d ok {NUMBERS}\n", None),
    ("row 7\n", f"def 8 SHOW;\n2 ok {NUMBERS}\n"),
    ("row 7\n", f"row 8\n2 ok rows 2 {NUMBERS}\nrow"),
    ("row 'a", f"b'\n3 ok rows 1 {NUMBERS}\n"),
]


class EngineTest(PipeCase):
    """An engine whose second report isn't that of the statement."""

    def test_lies(self) -> None:
        for lie, late in LIES:
            with self.subTest(lie=lie, late=late):
                self.lie_by(lie, late)
                connection = self.open()
                process = engine_of(connection).process
                with self.assertRaises(piql.InternalError) as caught:
                    connection.execute("RUN q (?)", ("secret",))
                self.assertNotIn("secret", str(caught.exception))
                self.assertIsNotNone(process.poll())
                # The next statement is the first one of another run.
                self.assertEqual(connection.execute("RUN q").fetchall(), [])
                connection.close()

    def lie_by(self, lie: str, late: str | None) -> None:
        """What the next stand-in lies by."""
        self.set("PIQL_LIE", lie)
        self.set("PIQL_LATE", "" if late is None else late)

    def test_what_comes_unasked(self) -> None:
        self.lie_by(f"%d ok rows 0 {NUMBERS}\n", f"3 ok rows 0 {NUMBERS}\n")
        connection = self.open()
        self.assertEqual(connection.execute("RUN q").fetchall(), [])
        process = engine_of(connection).process
        engine_of(connection).ready.poll(5000)
        self.sent()
        with self.assertRaises(piql.InternalError):
            connection.execute("RUN q")
        self.assertEqual((self.sent(), process.poll() is None), (b"", False))

    def test_only_one_piece_is_sent(self) -> None:
        for link in (self.open().link(), MemoryLink(RECORDING)):
            self.addCleanup(link.close)
            self.refuses(link)
            self.assertEqual(self.sent(), b"")
            self.assertIn(" ok ", link.exchange(b"SHOW;", True))
            self.assertEqual(self.sent(), b"SHOW;")

    def test_only_one_piece_is_sent_through_a_host(self) -> None:
        link = HostLink("a store in memory", MemoryStore(), program_of(self, "stub_engine.py"))
        self.addCleanup(link.close)
        self.assertIn("\n1 ok ", link.exchange(b"COUNT;", True))
        self.refuses(link)
        self.assertIn("\n2 ok ", link.exchange(b"COUNT;", True))

    def refuses(self, link: Link) -> None:
        """Tries what is no statement, or more than one."""
        for text in NOT_ONE:
            with self.subTest(text), self.assertRaises(piql.ProgrammingError):
                link.exchange(text, True)


Answer = Callable[[bytes], tuple[bytes, bytes]]


class Pretended:
    """A server of one client, which answers a statement by what a function says."""

    def __init__(self, case: unittest.TestCase, answer: Answer) -> None:
        self.answer = answer
        self.asked: list[bytes] = []
        self.path = listener_of(case, self.serve)

    def serve(self, listener: socket.socket) -> None:
        """Answers until a client has gone away."""
        client, _ = listener.accept()
        with client:
            write_frame(client, HELLO, GREETING)
            while True:
                try:
                    _, text = read_frame(client)
                except Exception:
                    return
                self.asked.append(text)
                write_frame(client, *self.answer(text))


class SocketTest(unittest.TestCase):
    """A server whose answers are none."""

    def link(self, answer: Answer) -> tuple[Pretended, SocketLink]:
        server = Pretended(self, answer)
        link = SocketLink(server.path, 5.0)
        self.addCleanup(link.close)
        return server, link

    def test_only_one_piece_is_sent(self) -> None:
        server, link = self.link(lambda _: (REPORT, f"9 ok {NUMBERS}\n".encode()))
        for text in NOT_ONE:
            with self.subTest(text), self.assertRaises(piql.ProgrammingError):
                link.exchange(text, True)
        link.exchange(b"SHOW;", True)
        self.assertEqual(server.asked, [b"SHOW;"])

    def test_answers_that_are_none(self) -> None:
        lies = [lie.replace("%d", "7").encode("utf-8", "surrogateescape") for lie, late in LIES if late is None]
        ends = [b"", b"[]", b"{}", b'{"status": "5", "text": "a"}', b'{"status": 5, "text": 7}', b"[" * 9999, b"\xff"]
        answers = [(REPORT, it) for it in lies if number_of(it) is None]
        answers += [(ENDED, it) for it in ends] + [(b"C", b""), (b"?", b""), (REPORT, b"")]
        for answer in answers:
            with self.subTest(answer=answer):
                _, link = self.link(lambda _, answer=answer: answer)  # type: ignore[misc]
                with self.assertRaises(piql.InternalError) as caught:
                    link.exchange(b"INSERT INTO t VALUES (1);", False)
                self.assertIn("whole or not at all", str(caught.exception))


class NumberTest(unittest.TestCase):
    """Which bytes are a report."""

    def test_reports(self) -> None:
        for text, number in (
            (b"1 ok bound 0 0 used 0 0\n", 1),
            (b"12 refused E402 0 bound 0 0 used 0 0\n", 12),
            (b"row 'a;\n3 ok bound 0 0 used 0 0\n''', -7, NULL, true\n4 ok rows 1 next AQ-_ bound 1 1 used 1 1\n", 4),
            (b"query q stop 1 bound 2 2\nindex t 1 (a, b DESC)\n2 ok bound 1 0 used 1 0\n", 2),
            (b"def 1 CREATE TABLE t (a INT NULL DEFAULT 'x\n''');\n2 ok bound 0 0 used 0 0\n", 2),
            ("row 'é'\n1 ok rows 1 bound 1 1 used 1 1\n".encode(), 1),
        ):
            with self.subTest(text):
                self.assertEqual(number_of(text), number)
                for cut in range(len(text)):
                    self.assertIsNone(number_of(text[:cut]))
                for more in (b"\n", b" ", b"1", text):
                    self.assertIsNone(number_of(text + more))
