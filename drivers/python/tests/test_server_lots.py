"""Several statements in one frame of piql-serve: their turns, their answers, and what is told where a run ends."""

import json
import os
import signal
import socket
import threading
import time
import unittest

from helpers import piql
from piql.frames import (
    BROKEN,
    ENDED,
    GREETING,
    HELLO,
    LIMITS,
    MANY,
    REPORT,
    STATEMENT,
    UNBEGUN,
    FrameError,
    many_text,
    read_frame,
    statements_in,
    write_frame,
)
from piql.lots import LOT_BYTES, LOT_STATEMENTS, Asked
from piql.server.lots import Lot
from piql.server.requests import OTHER, READING
from piql.socketlink import SocketLink
from pipes import listener_of
from served import ServedCase, asked, greeted

Frame = tuple[bytes, bytes]
INSERTS = [b"INSERT a %d;" % number for number in range(40)]


def ask(client: socket.socket, *statements: bytes, limit: int = 0) -> list[Frame]:
    """The frames that answer several statements."""
    write_frame(client, MANY, many_text(limit, 0, statements))
    found: list[Frame] = []
    while len(found) < len(statements) and (not found or found[-1][0] in (REPORT, ENDED)):
        found.append(read_frame(client))
    return found


def kinds(frames: list[Frame]) -> bytes:
    """Their kinds."""
    return b"".join(kind for kind, _ in frames)


class LotTest(ServedCase):
    """A server over a stand-in that writes down what it made."""

    def test_each_is_answered_in_order(self) -> None:
        self.serve()
        client = greeted(self, self.at)
        statements = [*INSERTS, b"RUN rows_2 ();", b"INSERT twice;", b"CREATE x;", b"PREPARE q AS y;", b"SHOW;", b"?;"]
        found = ask(client, *statements)
        self.assertEqual(kinds(found), REPORT * len(statements))
        self.assertIn(b"row 1, 'text of a row'\nrow 1", found[40][1])
        self.assertIn(b"refused E503", found[41][1])
        self.assertEqual(len(self.made()), 40 + 4)
        self.assertEqual(self.made()[:40], [it[:-1].decode() for it in INSERTS])
        self.assertEqual(asked(client, "RUN rows_1 ();")[0], REPORT)

    def test_a_run_that_ends(self) -> None:
        for middle, status in ((b"RUN exit_7 ();", 7), (b"RUN damage ();", 6)):
            server = self.serve()
            client = greeted(self, self.at)
            found = ask(client, INSERTS[0], INSERTS[1], middle, *INSERTS[2:])
            self.assertEqual(kinds(found), REPORT * 2 + ENDED + UNBEGUN)
            self.assertEqual(json.loads(found[2][1])["status"], status)
            self.assertIn(b"wasn't begun", found[3][1])
            self.assertEqual(asked(client, "RUN rows_1 ();")[0], REPORT)
            self.assertEqual(server.end()[0], 0)
        self.assertEqual(self.made(), ["INSERT a 0", "INSERT a 1"] * 2)

    def test_rights(self) -> None:
        server = self.serve("--socket", f"{self.folder}/reading:read")
        client = greeted(self, self.folder / "reading")
        found = ask(client, b"RUN rows_1 ();", INSERTS[0], b"CREATE x;", b"SHOW;")
        self.assertEqual(kinds(found), REPORT + ENDED * 2 + REPORT)
        self.assertIn("the statement wasn't made", json.loads(found[1][1])["text"])
        self.assertEqual((self.made(), server.end()[0]), ([], 0))

    def test_others_have_their_turns(self) -> None:
        self.serve()
        first, second = greeted(self, self.at), greeted(self, self.at)
        write_frame(first, MANY, many_text(0, 0, [b"INSERT wait_20;"] * 200))
        time.sleep(0.2)
        begun = time.monotonic()
        self.assertEqual(asked(second, "RUN rows_1 ();")[0], REPORT)
        self.assertLess(len(self.made()), 150)
        self.assertLess(time.monotonic() - begun, 3.0)
        self.assertEqual({read_frame(first)[0] for _ in range(200)}, {REPORT})

    def test_a_client_that_goes_away(self) -> None:
        self.serve()
        first, second = greeted(self, self.at), greeted(self, self.at)
        write_frame(first, MANY, many_text(0, 0, [b"INSERT wait_20;"] * 200))
        time.sleep(0.2)
        first.close()
        half = greeted(self, self.at)
        half.sendall(b"\0\0\1\0" + MANY + LIMITS.pack(0, 0) + b"\0\0\0\x05SHOW;")
        half.close()
        time.sleep(1.0)
        made = len(self.made())
        self.assertLess(made, 100)
        self.assertEqual(asked(second, "RUN rows_1 ();")[0], REPORT)
        self.assertEqual(len(self.made()), made)

    def test_a_client_that_takes_nothing(self) -> None:
        self.serve()
        slow, other = greeted(self, self.at), greeted(self, self.at)
        write_frame(slow, MANY, many_text(0, 0, [b"RUN rows_1000 ();"] * 600))
        time.sleep(1.0)
        self.assertEqual(asked(other, "RUN rows_1 ();")[0], REPORT)
        for _ in range(600):
            self.assertEqual(read_frame(slow)[0], REPORT)
        self.assertEqual(asked(slow, "RUN rows_1 ();")[0], REPORT)

    def test_limits(self) -> None:
        server = self.serve()
        client, other = greeted(self, self.at), greeted(self, self.at)
        found = ask(client, INSERTS[0], b"INSERT wait_1500;", *INSERTS[1:30], limit=500)
        self.assertEqual(kinds(found), ENDED * 16 + UNBEGUN)
        self.assertIn("made or not made", json.loads(found[0][1])["text"])
        self.assertIn(b"wasn't begun", found[-1][1])
        self.assertEqual(asked(client, "RUN rows_1 ();")[0], REPORT)
        self.assertEqual(len(self.made()), 16)
        write_frame(other, STATEMENT, b"RUN wait_1500 ();")
        time.sleep(0.2)
        found = ask(client, INSERTS[0], INSERTS[1], limit=300)
        self.assertEqual(kinds(found), UNBEGUN)
        self.assertIn(b"waited 0.3 seconds", found[0][1])
        self.assertEqual(read_frame(other)[0], REPORT)
        self.assertEqual(len(self.made()), 16)
        self.assertIn("event=timeout where=at-hand limit=0.500", server.end()[1])

    def test_the_time_of_a_pipeline(self) -> None:
        self.serve()
        with piql.connect(f"unix:{self.at}") as connection:
            pipeline = connection.pipeline(timeout=0.5, raises=False)
            texts = ["INSERT a", "INSERT wait_1500", *["INSERT b"] * 20]
            results = [pipeline.execute(text) for text in texts]
            pipeline.send()
            for result in results[:16]:
                self.assertRegex(str(result.error), "made or not made")
            self.assertEqual({type(it.error) for it in results[16:]}, {piql.NotBegun})
            with connection.pipeline(timeout=60.0) as pipeline:
                result = pipeline.run("rows_1")
            self.assertEqual(result.row, (1, "text of a row"))
        self.assertEqual(len(self.made()), 16)
        connection = piql.connect(f"unix:{self.at}", step=0.3)
        self.addCleanup(connection.close)
        with self.assertRaises(piql.OperationalError) as caught:
            with connection.pipeline() as pipeline:
                for text in ("RUN rows_1 ()", "RUN hang ()", "INSERT c"):
                    pipeline.execute(text)
        self.assertRegex(str(caught.exception), "statement 1 of 3: the server gave no report for 0.3 seconds")

    def test_an_engine_that_stands_still(self) -> None:
        server = self.serve("--statement-kill", 1)
        client = greeted(self, self.at)
        found = ask(client, *[b"RUN wait_300 ();"] * 20, b"RUN hang ();", b"SHOW;")
        self.assertEqual(kinds(found), REPORT * 20 + ENDED + UNBEGUN)
        self.assertEqual(json.loads(found[20][1])["status"], -signal.SIGKILL)
        self.assertEqual(asked(client, "RUN rows_1 ();")[0], REPORT)
        self.assertEqual(server.end()[1].count("statement-killed"), 1)

    def test_a_stop_makes_what_was_asked_before(self) -> None:
        server = self.serve()
        client = greeted(self, self.at)
        write_frame(client, MANY, many_text(0, 0, [b"INSERT wait_20;"] * 60))
        time.sleep(0.1)
        server.process.send_signal(signal.SIGTERM)
        self.assertEqual({read_frame(client)[0] for _ in range(60)}, {REPORT})
        self.assertEqual((server.end()[0], len(self.made())), (0, 60))

    def test_a_stop_that_takes_too_long(self) -> None:
        server = self.serve()
        client = greeted(self, self.at)
        write_frame(client, MANY, many_text(0, 0, [*INSERTS, b"RUN hang ();", *INSERTS]))
        time.sleep(0.5)
        server.process.send_signal(signal.SIGTERM)
        found = [read_frame(client) for _ in range(33)]
        self.assertEqual(kinds(found[:32]), REPORT * 32)
        while found[-1][0] != UNBEGUN:
            found.append(read_frame(client))
        self.assertEqual(kinds(found[32:]).strip(REPORT), ENDED + UNBEGUN)
        self.assertEqual((server.end()[0], len(self.made())), (0, 40))

    def test_frames_that_are_none(self) -> None:
        server = self.serve()
        one = b"\0\0\0\x05SHOW;"
        zeros = LIMITS.pack(0, 0)
        for text in (b"", zeros, zeros[:7], zeros + one[:-1], zeros + one + b"\0", zeros + one + b"\0\0\0\0", one):
            with self.subTest(text):
                client = greeted(self, self.at)
                write_frame(client, MANY, text)
                self.assertIn("a frame", self.left(client))
        many, lengthy = [b"SHOW;"] * (LOT_STATEMENTS + 1), [b"a" * 65_536 + b";"]
        for statements in ([b"SHOW;SHOW;"], [b"SHOW;", b"SHOW"], many, lengthy):
            client = greeted(self, self.at)
            write_frame(client, MANY, many_text(0, 0, [b"INSERT no;", *statements]))
            self.assertIn("a frame", self.left(client))
        client = greeted(self, self.at)
        client.sendall((LOT_BYTES + 1).to_bytes(4) + MANY)
        self.assertIn("a frame", self.left(client))
        self.assertEqual(self.made(), [])
        # Those of the turns before it were made.
        client = greeted(self, self.at)
        found = ask(client, *INSERTS[:16], b"SHOW;SHOW;", *INSERTS[16:])
        self.assertEqual(kinds(found), REPORT * 16 + BROKEN)
        self.assertEqual((len(self.made()), server.end()[0]), (16, 0))

    def test_a_turn_has_no_more_bytes_than_a_statement(self) -> None:
        lot = Lot(many_text(0, 7, [b"RUN q ('%b');" % (b"x" * 20_000)] * 5 + [b"a;"] * 20))
        turns = []
        while lot.left():
            lot.prepare()
            lot.take(READING | {OTHER})
            turns.append((lot.taken, {it.rows for it in lot.turn()}))
            lot.end_turn()
        self.assertEqual(turns, [(3, {7}), (2, {7})] + [(1, {7})] * 20)

    def test_what_comes_ahead_is_taken_later(self) -> None:
        self.serve()
        client = greeted(self, self.at)
        lot = many_text(0, 0, [b"INSERT wait_200;", *INSERTS])
        write_frame(client, MANY, lot)
        write_frame(client, MANY, many_text(0, 0, [b"INSERT b;"] * 100))
        write_frame(client, STATEMENT, b"RUN rows_1 ();")
        self.assertEqual({read_frame(client)[0] for _ in range(142)}, {REPORT})
        self.assertEqual(self.made()[41:], ["INSERT b"] * 100)

    def test_a_server_that_is_killed(self) -> None:
        server = self.serve()
        with piql.connect(f"unix:{self.at}", timeout=0.2) as connection:
            pipeline = connection.pipeline(raises=False)
            results = [pipeline.execute("INSERT wait_50") for _ in range(40)] + [pipeline.execute("RUN rows_1 ()")]
            thread = threading.Thread(target=pipeline.send)
            thread.start()
            time.sleep(1.0)
            os.kill(server.engine(), signal.SIGSTOP)
            server.end(signal.SIGKILL)
            thread.join()
        told = [it.error is None for it in results]
        self.assertEqual(told, sorted(told, reverse=True))
        for result in results[told.index(False) : -1]:
            self.assertRegex(str(result.error), r"statement \d+ of 41: the server went away.* made or not made")
        self.assertRegex(str(results[-1].error), "went away.*changes nothing")


class FrameTest(unittest.TestCase):
    """What a frame of several statements has."""

    def test_what_is_packed_is_found_again(self) -> None:
        for statements in ([b"SHOW;"], [b"", b"a", b"\0" * 65_536], [b"x;"] * LOT_STATEMENTS):
            self.assertEqual(statements_in(many_text(1, 2, statements)), statements)

    def test_a_cut_text_is_refused(self) -> None:
        text = many_text(0, 0, [b"SHOW;", b"INSERT a;"])
        for cut in range(len(text)):
            if cut != LIMITS.size + 4 + 5:
                self.assertRaises(FrameError, statements_in, text[:cut])


LOT = [Asked(b"INSERT a;", False), Asked(b"RUN q;", True)]
OK = (REPORT, b"1 ok bound 1 1 used 1 0\n")


class AnswerTest(unittest.TestCase):
    """What a server answers that is another one than this package's."""

    def outcomes(self, *answers: Frame) -> list[object]:
        """What is told of two statements; the server then goes away."""

        def serve(listener: socket.socket) -> None:
            for _ in range(2):
                client, _ = listener.accept()
                with client:
                    write_frame(client, HELLO, GREETING)
                    read_frame(client)
                    for answer in answers:
                        write_frame(client, *answer)
            listener.close()

        link = SocketLink(listener_of(self, serve), 0.2)
        self.addCleanup(link.close)
        found: list[object] = []
        link.exchange_all(LOT, found.append)
        self.assertEqual(len(found), 2)
        return found

    def test_an_older_server(self) -> None:
        kind, size = b"a frame has one whole statement, or the name of a copy", b"a frame of 70000 bytes; it has 1 to 9"
        for said in (kind, size):
            for error in self.outcomes((BROKEN, said)):
                self.assertIsInstance(error, piql.NotSupportedError)
                self.assertIn("older than this package, and it made none of these", str(error))

    def test_answers_that_are_none(self) -> None:
        for answer in ((REPORT, b""), (REPORT, b"1 ok"), (b"?", b""), (HELLO, GREETING)):
            self.assertEqual({type(it) for it in self.outcomes(answer)}, {piql.InternalError})
            told, error = self.outcomes(OK, answer)
            self.assertEqual((told, type(error)), (OK[1].decode(), piql.InternalError))
        self.assertEqual([type(it) for it in self.outcomes((ENDED, b"{}"), OK)], [piql.InternalError, str])

    def test_a_server_that_goes_away(self) -> None:
        first, second = self.outcomes()
        self.assertRegex(str(first), "went away.*made or not made")
        self.assertRegex(str(second), "went away.*changes nothing")
        # What only reads is sent once more.
        told, error = self.outcomes(OK)
        self.assertEqual((told, type(error)), (OK[1].decode(), str))

    def test_a_frame_longer_than_an_older_server_takes(self) -> None:
        def serve(listener: socket.socket) -> None:
            client, _ = listener.accept()
            with client:
                write_frame(client, HELLO, GREETING)
                client.recv(1000)
                write_frame(client, BROKEN, b"a frame of 9000000 bytes; it has 1 to 65545")

        link = SocketLink(listener_of(self, serve), 0.2)
        self.addCleanup(link.close)
        found: list[object] = []
        link.exchange_all([Asked(b"RUN q ('%b');" % (b"x" * 60_000), True)] * 150, found.append)
        self.assertEqual({type(it) for it in found}, {piql.NotSupportedError})
