"""A pipeline: several statements are sent together, each has its own answer or exception, and what stands is told."""

import re
import threading
import unittest
from pathlib import Path
from unittest.mock import Mock

from helpers import built, engine_of, needs_file, needs_memory, new_folder, piql
from piql.hosts import Fault, Guard, HostLink, MemoryStore, ReaderLink
from piql.lots import LOT_BYTES, LOT_STATEMENTS, Asked
from piql.pipeline import Result
from pipes import RECORDING, PipeCase, program_of
from served import Served, stub_program
from test_hosts import Pinned
from test_matching import LIES
from test_waiting import SOON, Interrupt

USERS = "CREATE TABLE users (name TEXT(20), town TEXT(30), PRIMARY KEY (name))"
INSERT = "INSERT INTO users VALUES (?, ?)"
OF_NAME = "SELECT u.town FROM users AS u WHERE u.name = ?"
# After so many seconds a statement that hangs is given up; the others end before, also on a machine that does much else.
LATE = 3.0
# Statements of one pipeline in their order: with its values, and its rows, or its number of rows written, or the number
# of its refusal.
STATEMENTS: list[tuple[str, tuple[object, ...], object]] = [
    (USERS, (), -1),
    ("CREATE COUNTER of_town OF users (town)", (), -1),
    (INSERT, ("ann", "rome"), 1),
    (INSERT, ("ann", "oslo"), "E503"),
    (INSERT, ("bob", "ro'me;\n2 ok"), 1),
    (OF_NAME, ("bob",), [("ro'me;\n2 ok",)]),
    (OF_NAME, ("nobody",), []),
    ("UPDATE users SET town = ? WHERE name = ?", ("lima", "ann"), 1),
    ("UPDATE users SET town = ? WHERE name = ?", ("lima", "nobody"), 0),
    (OF_NAME, ("ann",), [("lima",)]),
    ("READ of_town (?)", ("lima",), [(1,)]),
    ("SELECT u.name FROM users AS u WHERE u.town = ?", ("lima",), "E304"),
    ("PREPARE all_of AS SELECT u.name FROM users AS u PAGINATE 1", (), -1),
    ("RUN all_of", (), [("ann",)]),
    ("RUN none_such (?)", (1,), "E401"),
    ("EXPLAIN SELECT u.name FROM users AS u PAGINATE 1", (), [("stop 1", 1, 1, None)]),
    ("DELETE FROM users WHERE name = ?", ("bob",), 1),
    (OF_NAME, ("bob",), []),
]


def came_of(result: Result) -> object:
    """What became of a statement, as the table above has it."""
    if result.error is not None:
        return result.error.number
    return result.rowcount if result.rowcount < 1 or not result.used else answer_of(result)


def answer_of(result: Result) -> object:
    """The rows, or how many were written."""
    try:
        return result.rows
    except piql.ProgrammingError:
        return result.rowcount


class StoresTest(unittest.TestCase):
    """The same statements over each kind of store."""

    def answers(self, connection: piql.Connection) -> None:
        """Sends all of them in one pipeline."""
        self.addCleanup(connection.close)
        before = connection.round_trips
        with connection.pipeline(raises=False) as pipeline:
            results = [pipeline.execute(text, values) for text, values, _ in STATEMENTS]
        for result, (text, _, wanted) in zip(results, STATEMENTS):
            with self.subTest(text):
                came = came_of(result)
                self.assertEqual([] if came == 0 and wanted == [] else came, wanted)
        self.assertEqual(results[13].next_page, connection.execute("RUN all_of").next_page)
        # One for the pipeline, and one that tells the names behind the definitions for its refusals.
        self.assertLessEqual(connection.round_trips - before, 3)

    @needs_file
    def test_a_file(self) -> None:
        self.answers(piql.connect(new_folder(self) / "store.db"))

    @needs_memory
    def test_memory(self) -> None:
        self.answers(piql.connect(":memory:"))

    @needs_file
    def test_the_longest(self) -> None:
        connection = piql.connect(new_folder(self) / "store.db")
        connection.execute(USERS)
        self.longest(connection)

    @needs_file
    def test_a_server(self) -> None:
        folder = new_folder(self)
        server = Served(folder / "store.db", folder / "socket")
        self.addCleanup(server.end)
        self.answers(piql.connect(f"unix:{folder}/socket"))
        self.longest(piql.connect(f"unix:{folder}/socket"))

    def longest(self, connection: piql.Connection) -> None:
        """As much as a pipeline may have: each text is refused, as it is longer than a column's."""
        self.addCleanup(connection.close)
        connection.execute("PREPARE longest AS SELECT u.town FROM users AS u WHERE u.name = [1]")
        text = "x" * (65_500 - 4 - len("RUN longest ('');"))
        with connection.pipeline(raises=False) as pipeline:
            results = [pipeline.run("longest", text) for _ in range(LOT_BYTES // 65_500)]
        self.assertEqual({it.error and it.error.number for it in results}, {"E402"})

    @unittest.skipUnless(built("piql_host"), "crates/piql_host is not built")
    def test_a_host(self) -> None:
        self.answers(piql.Connection(HostLink("a store", MemoryStore(), built("piql_host"))))


class FormTest(PipeCase):
    """What a pipeline collects and sends, over a stand-in that answers each statement as accepted."""

    def test_all_are_sent_together_and_in_order(self) -> None:
        connection = self.open()
        with connection.pipeline() as pipeline:
            first = pipeline.run("q", 7, "it's; --", after="A'")
            second = pipeline.execute("INSERT INTO t VALUES (?)", (None,))
            self.assertEqual((len(pipeline), self.sent()), (2, b""))
        self.assertEqual(self.sent(), b"RUN q (7, 'it''s; --') AFTER 'A''';INSERT INTO t VALUES (NULL);")
        self.assertEqual((first.rows, first.row, second.rowcount, second.error), ([], None, 1, None))
        self.assertEqual((connection.statements, connection.round_trips), (3, 2))
        with self.assertRaises(piql.ProgrammingError):
            second.rows

    def test_nothing_is_sent_where_the_block_raises(self) -> None:
        connection = self.open()
        with self.assertRaises(ZeroDivisionError), connection.pipeline() as pipeline:
            result = pipeline.run("q")
            1 / 0
        for wanted in ("error", "rows", "rowcount", "used"):
            self.assertRaises(piql.InterfaceError, getattr, result, wanted)
        pipeline.send()
        self.assertEqual(self.sent(), b"")

    def test_what_is_wrong_is_told_at_once(self) -> None:
        connection = self.open()
        pipeline = connection.pipeline()
        for text, values in (("RUN q (?)", ()), ("RUN q (?)", (1.5,)), ("SHOW; SHOW", ()), ("RUN q ('", ())):
            self.assertRaises(piql.DatabaseError, pipeline.execute, text, values)
        self.assertRaises(piql.ProgrammingError, pipeline.run, "q (1); DELETE FROM t WHERE id = 1; RUN q", 1)
        self.assertRaises(piql.ProgrammingError, pipeline.execute, "SHOW", (), after="A")
        self.assertEqual((len(pipeline), self.sent()), (0, b""))
        connection.close()
        self.assertRaises(piql.InterfaceError, connection.pipeline)
        self.assertRaises(piql.InterfaceError, self.open().pipeline, timeout=-1)

    def test_a_pipeline_that_is_full(self) -> None:
        connection = self.open()
        pipeline = connection.pipeline()
        for _ in range(LOT_STATEMENTS):
            pipeline.run("q")
        with self.assertRaisesRegex(piql.PipelineFull, "at most 1,024 statements and 16,777,216 bytes"):
            pipeline.run("q")
        self.assertEqual(self.sent(), b"")
        pipeline.send()
        self.assertEqual(self.sent(), b"RUN q ();" * LOT_STATEMENTS)
        # Each has 65,500 bytes with its length: 256 of them are one too many.
        text = "x" * (65_500 - 4 - len("RUN q ('');"))
        taken = [pipeline.run("q", text) for _ in range(LOT_BYTES // 65_500)]
        with self.assertRaises(piql.PipelineFull):
            pipeline.run("q", text)
        self.assertEqual((len(taken), self.sent()), (256, b""))

    def test_a_select_is_prepared_once_before_its_first_run(self) -> None:
        connection = self.open(prepare=True)
        text = "SELECT x.a FROM t AS x WHERE x.b = ?"
        with connection.pipeline() as pipeline:
            pipeline.execute("INSERT INTO t VALUES (1)")
            pipeline.execute(text, (1,))
            pipeline.execute(text.upper().replace("X.A", "x.a"), (2,))
        told = self.sent().split(b";")
        self.assertEqual([it.split()[0] for it in told if it], [b"INSERT", b"PREPARE", b"RUN", b"RUN"])

    def test_a_select_that_leaves_nothing(self) -> None:
        connection = self.open()
        with connection.pipeline() as pipeline:
            select, other = pipeline.execute("SELECT x.a FROM t AS x WHERE x.b = [1]", ("it's",)), pipeline.run("q")
            page = pipeline.execute("SELECT * FROM t PAGINATE 2")
        self.assertEqual((select.rows, select.next_page, other.rows, page.rows), ([], None, [], []))
        self.assertRaises(piql.NotSupportedError, getattr, page, "next_page")
        sent = b"SELECT x.a FROM t AS x WHERE x.b =  'it''s' ;RUN q ();SELECT * FROM t PAGINATE 2;"
        self.assertEqual(self.sent(), b"SHOW;" + sent)
        for text, values in (("SELECT a FROM t WHERE b = ?", (None,)), ("SELECT a FROM t WHERE b = ?", ())):
            self.assertRaises(piql.DatabaseError, pipeline.execute, text, values)

    def test_threads(self) -> None:
        connection, found = self.open(), {}

        def ask(number: int) -> None:
            for _ in range(20):
                with connection.pipeline() as pipeline:
                    results = [pipeline.execute("READ c (1)" if number % 2 else "RUN q (1)") for _ in range(number)]
                found.setdefault(number, []).append([it.rows for it in results])

        threads = [threading.Thread(target=ask, args=(number,)) for number in range(1, 9)]
        for thread in threads:
            thread.start()
        for thread in threads:
            thread.join()
        for number in range(1, 9):
            self.assertEqual(found[number], [[[(0,)] if number % 2 else []] * number] * 20)


class RaiseTest(PipeCase):
    """Which exception is raised, and what each result has."""

    lie = "%d refused E503 users bound 2 1 used 1 1\n"

    def test_the_first_exception(self) -> None:
        connection = self.open()
        with self.assertRaisesRegex(piql.IntegrityError, "^statement 1 of 2: E503 users") as caught:
            with connection.pipeline() as pipeline:
                first, second = pipeline.execute("INSERT INTO users VALUES (1)"), pipeline.run("q")
        self.assertIs(caught.exception, first.error)
        self.assertEqual((caught.exception.position, caught.exception.number), (1, "E503"))
        self.assertEqual((second.error, second.rows), (None, []))
        self.assertRaises(piql.IntegrityError, getattr, first, "rowcount")


class LieTest(PipeCase):
    """An engine one of whose reports isn't that of its statement."""

    def test_lies(self) -> None:
        for lie, late in LIES:
            with self.subTest(lie=lie, late=late):
                self.set("PIQL_LIE", lie)
                self.set("PIQL_LATE", "" if late is None else late)
                connection = self.open()
                process = engine_of(connection).process
                with connection.pipeline(raises=False) as pipeline:
                    results = [pipeline.execute("RUN q (?)", ("secret",)) for _ in range(3)]
                # Reports before it, and behind one whose lines alone are wrong, have their own numbers.
                errors = [(number, it.error) for number, it in enumerate(results, 1) if it.error is not None]
                self.assertTrue(errors)
                for number, error in errors:
                    self.assertIsInstance(error, piql.InternalError)
                    self.assertIn(f"statement {number} of 3", str(error))
                    self.assertNotIn("secret", str(error))
                self.assertIsNotNone(process.poll())
                self.assertEqual(connection.execute("RUN q").fetchall(), [])
                connection.close()


class EndTest(unittest.TestCase):
    """Runs that end in the middle of a pipeline, over a stand-in that writes down what it made."""

    def setUp(self) -> None:
        self.folder = new_folder(self)
        self.store = self.folder / "store.db"
        self.program = stub_program(self.folder)

    def open(self, **more: object) -> piql.Connection:
        connection = piql.connect(self.store, program=self.program, **more)  # type: ignore[arg-type]
        self.addCleanup(connection.close)
        return connection

    def made(self) -> list[str]:
        path = Path(f"{self.store}.made")
        return path.read_text().splitlines() if path.exists() else []

    def sent(self, connection: piql.Connection, middle: str, **more: object) -> list[Result]:
        """Two inserts before a statement, and two behind it."""
        with connection.pipeline(raises=False, **more) as pipeline:  # type: ignore[arg-type]
            texts = ["INSERT a 1", "INSERT a 2", middle, "INSERT a 3", "RUN rows_1 ()"]
            return [pipeline.execute(text) for text in texts]

    def stands(self, results: list[Result], why: str) -> None:
        """What was told stands, the one at hand was made or not, and the others weren't begun."""
        self.assertEqual([it.error for it in results[:2]], [None, None])
        self.assertRegex(str(results[2].error), f"^statement 3 of 5: .*{why}")
        self.assertNotIsInstance(results[2].error, piql.NotBegun)
        for number in (4, 5):
            error = results[number - 1].error
            self.assertIsInstance(error, piql.NotBegun)
            self.assertRegex(str(error), f"^statement {number} of 5: .* wasn't begun")
            self.assertEqual(error and error.position, number)

    def test_an_engine_that_ends(self) -> None:
        connection = self.open()
        results = self.sent(connection, "RUN exit_7 ()")
        self.stands(results, "ended with status 7.*changes nothing")
        self.assertEqual(results[2].error and results[2].error.status, 7)
        self.assertEqual(self.made(), ["INSERT a 1", "INSERT a 2"])
        self.assertEqual(connection.execute("RUN rows_2 ()").fetchall()[1], (1, "text of a row"))
        with self.assertRaisesRegex(piql.InternalError, "statement 2 of 3"), connection.pipeline() as pipeline:
            for text in ("RUN rows_1 ()", "RUN damage ()", "RUN rows_1 ()"):
                pipeline.execute(text)

    def test_an_engine_that_stands_still(self) -> None:
        self.stands(self.sent(self.open(step=LATE), "RUN hang ()"), "stood still for 3 seconds")
        self.assertEqual(self.made(), ["INSERT a 1", "INSERT a 2"])

    def test_the_time_of_a_pipeline(self) -> None:
        connection = self.open()
        self.stands(self.sent(connection, "INSERT b wait_60000", timeout=LATE), "time was over.*whole or not at all")
        self.assertEqual(self.made(), ["INSERT a 1", "INSERT a 2"])
        # A step is that of each statement, and not of all.
        with self.open(step=LATE).pipeline() as pipeline:
            for _ in range(5):
                pipeline.execute("RUN wait_800 ()")
        with self.assertRaisesRegex(piql.OperationalError, "nothing was made of it"):
            with connection.pipeline(timeout=0) as pipeline:
                result = pipeline.run("rows_1")
        self.assertIsInstance(result.error, piql.NotBegun)

    def test_a_file_that_is_gone(self) -> None:
        connection = self.open()
        self.store.unlink()
        results = self.sent(connection, "RUN rows_1 ()")
        self.assertEqual({type(it.error) for it in results}, {piql.StoreGone})
        with self.assertRaises(piql.StoreGone), connection.pipeline() as pipeline:
            result = pipeline.run("rows_1")
        self.assertIsInstance(result.error, piql.NotBegun)

    def test_long_statements_with_long_answers(self) -> None:
        """Neither side waits for the other one, however much is on its way."""
        with self.open(step=SOON).pipeline() as pipeline:
            results = [pipeline.execute(f"RUN rows_1000 () -- {'x' * 30_000}\n") for _ in range(100)]
            results += [pipeline.execute("INSERT a b") for _ in range(100)]
        self.assertEqual({len(it.rows) for it in results[:100]}, {1000})
        self.assertEqual(len(self.made()), 100)


class HostTest(unittest.TestCase):
    """Runs behind a host, whose script comes in pieces of eight bytes."""

    def setUp(self) -> None:
        self.link = HostLink("a store", MemoryStore(), program_of(self, "stub_engine.py"), 5.0, SOON)
        self.addCleanup(self.link.close)

    def outcomes(self, *statements: bytes, limit: float | None = None) -> list[object]:
        """What became of each."""
        found: list[object] = []
        self.link.exchange_all([Asked(it, not it.startswith(b"PUT")) for it in statements], found.append, limit)
        return found

    def test_reports(self) -> None:
        found = self.outcomes(b"PUT key value;", b"GET key;", b"COUNT;", b"ECHO a long one;")
        self.assertEqual(re.findall(r"\n(\d ok)", "".join(map(str, found))), ["1 ok", "2 ok", "3 ok", "4 ok"])
        self.assertIn("x01value", str(found[1]))
        self.assertEqual(self.link.revision, 1)

    def test_ends(self) -> None:
        for middle, why in ((b"EXIT 7;", "status 7"), (b"HANG;", "time was over"), (b"GARBAGE;", "so the run was ended")):
            with self.subTest(middle):
                self.outcomes(b"COUNT;")
                found = self.outcomes(b"COUNT;", middle, b"PUT a b;", b"GET a;", limit=LATE)
                self.assertIn("2 ok", str(found[0]))
                self.assertRegex(str(found[1]), why)
                self.assertEqual([type(it) for it in found[2:]], [piql.NotBegun] * 2)
        self.assertIn("(0,)", str(self.outcomes(b"COUNT;")[0]))


    def test_several_statements_are_read_at_one_revision(self) -> None:
        store = MemoryStore()
        reading = Pinned(store)
        link = ReaderLink("the store", reading, program_of(self, "stub_engine.py"), SOON, SOON)
        self.addCleanup(link.close)
        lot = [Asked(b"COUNT;", True), Asked(b"PUT k v;", False), Asked(b"COUNT;", True)]
        found: list[object] = []
        link.exchange_all(lot, found.append)
        self.assertEqual([type(it) for it in found], [str, piql.NotSupportedError, str])
        pins = len(reading.pins)
        store.write(b"k", Guard.ANY, b"", b"v")
        link.exchange_all(lot, found.append)
        self.assertEqual(len(reading.pins), pins + 1)
        self.assertEqual(["(1,)" in str(it) for it in found[3:]], [True, False, True])
        # Where one can't be read, all are read anew at another revision.
        reading.get = Mock(side_effect=[b"v", Fault("compacted"), b"w", b"w"])  # type: ignore[method-assign]
        found.clear()
        link.timeout = 60.0
        link.exchange_all([Asked(b"GET k;", True)] * 2, found.append)
        self.assertEqual([str(it).count("x01w") for it in found], [1, 1])


class InterruptTest(PipeCase):
    """Whatever interrupts the wait, each statement is sent once, and no result tells what isn't so."""

    def test_interrupts(self) -> None:
        connection, interrupt = self.open(), Interrupt(self, 0.00002)
        told: set[int] = set()
        for lot in range(65):
            connection.execute("RUN q")
            with connection.pipeline(raises=False) as pipeline:
                results = []
                for number in range(lot * 10, lot * 10 + 10):
                    results.append(pipeline.execute("INSERT INTO t VALUES (?)", (number,)))
                interrupt.during(pipeline.send)
            for number, result in enumerate(results, lot * 10):
                if result.error is None:
                    told.add(number)
                else:
                    self.assertRegex(str(result.error), r"statement \d+ of 10: the wait .* interrupted|ended")
        connection.close()
        sent = self.sent()
        numbers = [int(it.partition(b")")[0]) for it in sent.split(b"INSERT INTO t VALUES (")[1:] if b")" in it]
        self.assertGreater(interrupt.count, 10)
        self.assertEqual(len(numbers), len(set(numbers)))
        self.assertLessEqual(told, set(numbers))
        self.assertGreater(len(told), 100)
