"""The limits of piql-serve: how long a statement waits, how long an engine stands still, and how large an index is."""

import json
import os
import signal
import time
import unittest
from unittest import mock

from helpers import built, piql
from piql.frames import ENDED, LIMITED, LIMITS, REPORT, STATEMENT, read_frame, write_frame
from piql.hosts import HostLink, MemoryStore
from piql.server.clients import Ticket
from piql.server.figures import Figures
from piql.server.indexes import explain_of, wanted
from piql.server.limits import Limits
from piql.server.log import Log
from piql.server.observed import Observed
from piql.server.requests import Request
from piql.server.watch import Watch
from piql.server.worker import Worker
from piql.socketlink import SocketLink
from served import ServedCase, asked, greeted

WRITE = "INSERT INTO t VALUES (1, 'x');"
PIQL_HOST = built("piql_host")


class WaitTest(ServedCase):
    """Limits of time."""

    def told(self, frame: tuple[bytes, bytes]) -> str:
        """What a statement without a report is told."""
        self.assertEqual(frame[0], ENDED)
        return str(json.loads(frame[1])["text"])

    def test_one_that_waits_is_not_made_and_one_at_hand_goes_on(self) -> None:
        server = self.serve("--statement-timeout", 1)
        first, second, third = (greeted(self, self.at) for _ in range(3))
        write_frame(first, STATEMENT, b"RUN wait_4000 ();")
        time.sleep(0.2)
        begun = time.monotonic()
        write_frame(second, STATEMENT, WRITE.encode())
        self.assertIn("it changes nothing", self.told(read_frame(first)))
        self.assertIn("it wasn't made", self.told(read_frame(second)))
        self.assertLess(time.monotonic() - begun, 3.5)
        # The late report of the first one reaches nobody.
        while asked(third, "RUN rows_1 ();")[0] != REPORT:
            self.assertLess(time.monotonic() - begun, 30)
        for client in (first, second):
            self.assertIn("row 1", asked(client, "RUN rows_1 ();")[1])
        self.assertEqual(self.made(), [])
        errors = server.end()[1]
        self.assertRegex(errors, r"event=timeout where=at-hand limit=1.000 statement=RUN seconds=[01]\.\d+ wait=")
        self.assertRegex(errors, r"event=timeout where=waiting limit=1.000 statement=INSERT name=t seconds=0.000 wait=1\.")

    def test_a_write_at_hand_is_made_or_not_made(self) -> None:
        self.serve("--statement-timeout", 0.5)
        client = greeted(self, self.at)
        write_frame(client, STATEMENT, b"INSERT wait_2000;")
        self.assertIn("it is made or not made", self.told(read_frame(client)))
        until = time.monotonic() + 30
        while not self.made() and time.monotonic() < until:
            time.sleep(0.05)
        self.assertEqual(self.made(), ["INSERT wait_2000"])

    def test_a_clients_own_limit(self) -> None:
        self.serve("--statement-timeout", 3600)
        busy, client = greeted(self, self.at), greeted(self, self.at)
        write_frame(busy, STATEMENT, b"RUN wait_3000 ();")
        time.sleep(0.2)
        write_frame(client, LIMITED, LIMITS.pack(300, 0) + WRITE.encode())
        self.assertIn("waited 0.3 seconds", self.told(read_frame(client)))
        self.assertEqual(read_frame(busy)[0], REPORT)
        write_frame(client, LIMITED, LIMITS.pack(0, 0) + WRITE.encode())
        self.assertEqual(read_frame(client)[0], REPORT)
        self.assertEqual(len(self.made()), 1)
        for text in (b"", b"\0" * 7, LIMITS.pack(0, 0), LIMITS.pack(1, 1) + b"SHOW;SHOW;"):
            other = greeted(self, self.at)
            write_frame(other, LIMITED, text)
            self.assertIn("one whole statement", self.left(other))

    def test_the_limit_of_the_drivers_statement(self) -> None:
        self.serve()
        busy = greeted(self, self.at)
        with piql.connect(f"unix:{self.at}", prepare=False) as connection:
            write_frame(busy, STATEMENT, b"RUN wait_1500 ();")
            time.sleep(0.2)
            with self.assertRaisesRegex(piql.OperationalError, "waited 0.3 seconds .* it wasn't made"):
                connection.execute(WRITE, timeout=0.3)
            self.assertEqual(read_frame(busy)[0], REPORT)
            with self.assertRaisesRegex(piql.OperationalError, "it is made or not made"):
                connection.execute("INSERT wait_1500", timeout=0.5)
            for seconds in (60, 1e30, float("inf")):
                connection.execute(WRITE, timeout=seconds)
        self.assertEqual(self.made(), ["INSERT wait_1500", *[WRITE[:-1]] * 3])

    def test_an_engine_that_stands_still_is_ended(self) -> None:
        server = self.serve("--statement-kill", 1)
        first, second = greeted(self, self.at), greeted(self, self.at)
        write_frame(first, STATEMENT, b"RUN hang ();")
        time.sleep(0.2)
        write_frame(second, STATEMENT, WRITE.encode())
        kind, text = read_frame(first)
        self.assertEqual((kind, json.loads(text)["status"]), (ENDED, -signal.SIGKILL))
        self.assertEqual(read_frame(second)[0], REPORT)
        os.kill(server.engine(), signal.SIGSTOP)
        self.assertEqual(asked(second, "RUN rows_1 ();")[0], ENDED)
        self.assertEqual(asked(second, "RUN rows_1 ();")[0], REPORT)
        errors = server.end()[1]
        self.assertRegex(errors, r"level=error event=statement-killed limit=1.000 statement=RUN name=hang seconds=1\.")
        self.assertEqual(errors.count("event=engine-ended status=-9"), 2)

    def test_an_opening_is_not(self) -> None:
        server = self.serve("--statement-kill", 0.5)
        self.store.with_name("site.db.slow").write_text("2")
        client = greeted(self, self.at)
        self.assertEqual(asked(client, "RUN exit_5 ();")[0], ENDED)
        self.assertEqual(asked(client, "RUN rows_1 ();")[0], REPORT)
        self.assertNotIn("statement-killed", server.end()[1])

    def test_a_run_that_was_ended_just_behind_its_report_is_not_used_again(self) -> None:
        loop, worker = mock.MagicMock(clients={}), mock.Mock()
        ticket = Ticket(mock.Mock(), Request(STATEMENT, b"SHOW;"), 0.0)
        looker = Limits(loop, worker, None, 1.0)
        watch = Watch(mock.Mock(), Figures())
        worker.at_hand, worker.fields.return_value = ticket, {}
        looker.look(10.0, watch)
        looker.look(10.9, watch)
        self.assertFalse(ticket.is_killed)
        looker.look(11.1, watch)
        self.assertTrue(ticket.is_killed)
        worker.store.link.engine.process.kill.assert_called_once()
        # It is over by the time that the guard is had.
        late = Ticket(mock.Mock(), Request(STATEMENT, b"SHOW;"), 0.0)
        worker.at_hand = late
        looker.look(12.0, watch)
        loop.guard.__enter__.side_effect = lambda: setattr(worker, "at_hand", None)
        looker.look(14.0, watch)
        self.assertFalse(late.is_killed)
        worker.store.link.engine.process.kill.assert_called_once()


class IndexTest(ServedCase):
    """What a PREPARE costs."""

    def test_over_a_file_the_rows_can_not_be_counted(self) -> None:
        server = self.serve("--index-rows", 0)
        client = greeted(self, self.at)
        for statement in ("PREPARE q AS SELECT wants;", "PREPARE r AS SELECT x;", "PREPARE 'no', query;"):
            self.assertEqual(asked(client, statement)[0], REPORT)
        self.assertEqual(len(self.made()), 3)
        errors = server.end()[1]
        self.assertEqual(errors.count("event=index-not-counted table=t\n"), 1)

    def test_what_a_client_allows_goes_with_each_statement(self) -> None:
        sent: list[tuple[bytes, bytes]] = []

        def answer(_: object, kind: bytes, text: bytes, wanted: bytes, seconds: float | None) -> bytes:
            sent.append((kind, text))
            return b"1 ok bound 0 0 used 0 0\n"

        self.serve()
        with mock.patch.object(SocketLink, "asked", answer):
            for rows, seconds, wanted in (
                (0, None, (STATEMENT, b"SHOW;")),
                (7, None, (LIMITED, LIMITS.pack(0, 7) + b"SHOW;")),
                (7, 2.0, (LIMITED, LIMITS.pack(2000, 7) + b"SHOW;")),
            ):
                link = SocketLink(str(self.at), 5.0, seconds, rows)
                self.addCleanup(link.close)
                link.exchange(b"SHOW;", True)
                self.assertEqual(sent.pop(), wanted)
        for rows in (-1, 1 << 32, "7", True):
            with self.assertRaises(piql.InterfaceError):
                piql.connect(f"unix:{self.at}", index_rows=rows)

    def test_the_query_of_a_prepare(self) -> None:
        for text, found in (
            ("PREPARE q AS SELECT x.a;", b"EXPLAIN SELECT x.a;"),
            ("-- a\n prepare q -- b\n As -- c\n sElect 'AS ;';", b"EXPLAIN sElect 'AS ;';"),
            ("PREPARE q SELECT x;", None),
            ("PREPARE;", None),
        ):
            with self.subTest(text):
                self.assertEqual(explain_of(Request(STATEMENT, text.encode())), found)
        self.assertIsNone(explain_of(Request(STATEMENT, b"PREPARE q AS SELECT '\xff';")))

    @unittest.skipUnless(PIQL_HOST, "crates/piql_host is not built")
    def test_over_a_host_they_are(self) -> None:
        link = HostLink("memory", MemoryStore(), PIQL_HOST, seconds=600)
        self.addCleanup(link.close)
        link.begin()
        nowhere = os.open(os.devnull, os.O_WRONLY)
        self.addCleanup(os.close, nowhere)
        store = Observed(link, Watch(figures=Figures(), log=Log("error", nowhere)))
        for table in ("first", "t"):
            store.exchange(f"CREATE TABLE {table} (a INT, b INT, PRIMARY KEY (a));".encode(), False)
        for number in range(3):
            store.exchange(f"INSERT INTO t VALUES ({number}, 1);".encode(), False)
        store.read_catalog()
        request = Request(STATEMENT, b"PREPARE q AS SELECT x.a FROM t AS x WHERE x.b = [1] ORDER BY x.a LIMIT 3;")
        self.assertEqual(wanted(store, request, 2), ("t", "b, a", True))
        self.assertEqual(wanted(store, request, 3), ("t", "b, a", False))
        by_key = Request(STATEMENT, b"PREPARE k AS SELECT x.b FROM t AS x WHERE x.a = [1];")
        self.assertIsNone(wanted(store, by_key, 0))
        worker = Worker(store, mock.Mock(), store.watch, mock.Mock(slow=1e9, index_rows=2))
        kind, text = worker.answer(Ticket(mock.Mock(), request, 0.0))
        self.assertEqual(kind, ENDED)
        self.assertIn("the index t (b, a) over more than 2 rows", json.loads(text)["text"])
        allowed = Request(LIMITED, LIMITS.pack(0, 3) + request.text)
        self.assertEqual(worker.answer(Ticket(mock.Mock(), allowed, 0.0))[0], REPORT)
        self.assertEqual(store.figures.catalog.indexes, {"t": 1})
        self.assertIsNone(wanted(store, Request(STATEMENT, b"PREPARE n AS SELECT x.b FROM no AS x;"), 0))


if __name__ == "__main__":
    unittest.main()
