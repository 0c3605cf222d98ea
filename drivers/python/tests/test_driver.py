"""The driver over a file: values, refusals, pages, definitions, and how a run that ended is told."""

import os
import random
import signal
import subprocess
import sys
import threading
import unittest

from helpers import TOP, StoreCase, engine_of, needs_file, needs_memory, new_folder, piql

SCRIPT = """
CREATE TABLE users (name TEXT(20), town TEXT(30), PRIMARY KEY (name));
CREATE TABLE subs (owner TEXT(20), target TEXT(20), PRIMARY KEY (owner, target), CARDINALITY LIMIT 2 (owner),
  FOREIGN KEY (target) REFERENCES users);
CREATE TABLE vals (id INT, i INT NULL, b BOOL NULL, t TEXT(1000) NULL, PRIMARY KEY (id));
INSERT INTO users VALUES ('ann', 'rome');
INSERT INTO users VALUES ('bob', 'oslo');
"""
BY_KEY = "SELECT v.i, v.b, v.t FROM vals AS v WHERE v.id = ?"
TEXTS = ["", "it's", "''", "a\0b", "\0", "\r\n", "x\n9 ok bound 1 1 used 1 1\n", "; --", "?", "[1]"]
TEXTS += ["é" * 500, "x" * 1000]
# A statement with its values, and the exception, the number and the fields of its refusal.
REFUSED = [
    ("INSERT INTO users VALUES (?, ?)", ("ann", "pisa"), piql.IntegrityError, "E503", {"table": "users"}),
    ("INSERT INTO subs VALUES ('ann', 'dan')", (), piql.IntegrityError, "E505", {"table": "subs", "number": "1"}),
    ("INSERT INTO users VALUES (?, ?)", ("c" * 21, ""), piql.DataError, "E501", {"table": "users", "column": "name"}),
    ("INSERT INTO users VALUES (?)", ("cid",), piql.ProgrammingError, "E502", {"table": "users"}),
    ("INSERT INTO user VALUES (?)", ("cid",), piql.ProgrammingError, "E202", {"name": "user"}),
    ("SELECT u.town FROM users AS u", (), piql.NotSupportedError, "E304", {"alias": "u"}),
    ("SELECT u.town FROM users AS u WHERE u.name = ?", (7,), piql.DataError, "E402", {"number": "1"}),
    ("RUN nothing", (), piql.ProgrammingError, "E401", {"name": "nothing"}),
    ("CREATE TABLE users (a INT, PRIMARY KEY (a))", (), piql.ProgrammingError, "E201", {"name": "users"}),
    ("CREATE TABLE z (a TEXT(0), PRIMARY KEY (a))", (), piql.NotSupportedError, "E206", {"word": "text"}),
]
# A statement with its values, and the line and the column at which it spells nothing.
MISSPELT = [
    ("SELECT u.town\nFROM users AS u\nWHERE u.name == ?", ("ann",), (3, 15)),
    ("INSERT INTO users VALUES (?, ? ?)", ("é", "long text", 1), (1, 32)),
    ("SELECT u.town FROM users AS u WHERE u.name = ? OR", ("ann",), (1, 48)),
    ("INSERT INTO users VALUES (?", ("ann",), (1, 28)),
    ("TRUNCATE users", (), (1, 1)),
]


class DriverTest(StoreCase):
    """One store."""

    script = SCRIPT

    def test_texts(self) -> None:
        for number, text in enumerate(TEXTS):
            with self.subTest(text=text):
                self.connection.execute("INSERT INTO vals VALUES (?, NULL, ?, ?)", (number, True, text))
                self.assertEqual(self.connection.execute(BY_KEY, (number,)).fetchall(), [(None, True, text)])

    def test_random_values(self) -> None:
        source = random.Random(38)
        for number in range(1000, 2000):
            letters = "".join(source.choices("ab'\n\0;-é€𝄞\\\"", k=source.randrange(60)))
            values = (source.randrange(-(2**63), 2**63), source.random() < 0.5, letters)
            row = tuple(source.choice([None, value]) for value in values)
            self.connection.execute("INSERT INTO vals VALUES (?, ?, ?, ?)", (number, *row))
            self.assertEqual(self.connection.execute(BY_KEY, (number,)).fetchall(), [row])

    def test_refusals(self) -> None:
        for text, values, kind, number, fields in REFUSED:
            with self.subTest(text), self.assertRaises(kind) as caught:
                self.connection.execute(text, values)
            self.assertEqual((caught.exception.number, caught.exception.fields), (number, fields))
            self.assertEqual(caught.exception.statement, text)
            self.assertTrue(caught.exception.way_out)

    def test_places(self) -> None:
        for text, values, place in MISSPELT:
            with self.subTest(text), self.assertRaises(piql.ProgrammingError) as caught:
                self.connection.execute(text, values)
            self.assertEqual((caught.exception.number, caught.exception.place), ("E104", place))

    def test_a_write_that_finds_no_row(self) -> None:
        cursor = self.connection.execute("INSERT INTO users VALUES ('dora', 'lima')")
        for name, count in (("dora", 1), ("nobody", 0)):
            cursor.execute("UPDATE users SET town = ? WHERE name = ?", ("x", name))
            self.assertEqual((cursor.rowcount, cursor.description), (count, None))
        self.assertEqual((cursor.bound, cursor.used), ((2, 1), (1, 0)))
        cursor.executemany("DELETE FROM users WHERE name = ?", [("dora",), ("dora",), ("nobody",)])
        self.assertEqual(cursor.rowcount, 1)
        with self.assertRaises(piql.IntegrityError):
            cursor.execute("INSERT INTO users VALUES ('ann', '')")

    def test_numbers_of_values(self) -> None:
        for values in ((), (1, 2), "a"):
            with self.assertRaises(piql.ProgrammingError):
                self.connection.execute("INSERT INTO users VALUES (?, ?, ?)", values)

    def test_bound_and_used(self) -> None:
        cursor = self.connection.execute("INSERT INTO users VALUES ('bea', 'lima')")
        self.assertEqual((cursor.bound, cursor.used, cursor.rowcount), ((2, 1), (2, 0), 1))
        cursor.execute("SELECT u.town FROM users AS u WHERE u.name = ?", ("zoe",))
        self.assertEqual((cursor.bound, cursor.used, cursor.fetchall()), ((1, 1), (1, 0), []))

    def test_pages(self) -> None:
        self.connection.execute("CREATE TABLE n (i INT, PRIMARY KEY (i))")
        self.connection.cursor().executemany("INSERT INTO n VALUES (?)", [(i,) for i in range(5)])
        pages, after = [], None
        for _ in range(3):
            cursor = self.connection.execute("SELECT i FROM n ORDER BY i PAGINATE 2", after=after)
            pages.append(cursor.fetchall())
            after = cursor.next_page
        self.assertEqual((pages, after), ([[(0,), (1,)], [(2,), (3,)], [(4,)]], None))
        with self.assertRaises(piql.DataError) as caught:
            self.connection.execute("SELECT i FROM n ORDER BY i PAGINATE 2", after="no cursor")
        self.assertEqual(caught.exception.number, "E403")
        with self.assertRaises(piql.ProgrammingError):
            self.connection.execute("INSERT INTO n VALUES (9)", after="AQ")

    def test_counters(self) -> None:
        self.connection.execute("CREATE TABLE likes (fan TEXT(9), post INT NULL, PRIMARY KEY (fan))")
        self.connection.execute("CREATE COUNTER liked OF likes (post)")
        self.assertEqual(self.connection.schema().counters()["liked"].columns, ("post",))
        rows = [("ann", 7), ("bob", 7), ("cid", None), ("dan", 8)]
        self.connection.cursor().executemany("INSERT INTO likes VALUES (?, ?)", rows)
        cursor = self.connection.execute("READ liked (?)", (7,))
        self.assertEqual((cursor.rowcount, cursor.fetchone(), cursor.fetchone()), (1, (2,), None))
        self.assertEqual((cursor.bound, cursor.used, cursor.next_page), ((1, 1), (1, 1), None))
        described = [(it.name, it.type_code, it.null_ok) for it in cursor.description or ()]
        self.assertEqual(described, [("rows", "INT", False)])
        self.assertEqual(self.connection.execute("READ liked (?)", (9,)).fetchall(), [(0,)])
        for text, values, kind, number in (
            ("READ liked (?)", (None,), piql.DataError, "E402"),
            ("READ likes (?)", (7,), piql.ProgrammingError, "E405"),
            ("CREATE COUNTER of_fan OF likes (fan)", (), piql.OperationalError, "E209"),
        ):
            with self.subTest(text), self.assertRaises(kind) as caught:
                self.connection.execute(text, values)
            self.assertEqual(caught.exception.number, number)
        with self.assertRaises(piql.ProgrammingError):
            self.connection.execute("READ liked (7)", after="AQ")
        with self.assertRaises(piql.ProgrammingError):
            self.connection.cursor().executemany("READ liked (?)", [(7,)])

    def test_executemany_stops_at_a_refusal(self) -> None:
        cursor = self.connection.cursor()
        rows = [("m1", "x"), ("m2", "x"), ("m1", "x"), ("m3", "x")]
        with self.assertRaises(piql.IntegrityError):
            cursor.executemany("INSERT INTO users VALUES (?, ?)", rows)
        self.assertEqual(cursor.rowcount, 2)
        with self.assertRaises(piql.ProgrammingError):
            cursor.executemany("SELECT u.town FROM users AS u WHERE u.name = ?", rows)

    def test_threads_share_a_connection(self) -> None:
        self.connection.execute("CREATE TABLE shared (i INT, PRIMARY KEY (i))")
        wrong: list[object] = []

        def work(first: int) -> None:
            for i in range(first, first + 20):
                self.connection.execute("INSERT INTO shared VALUES (?)", (i,))
                rows = self.connection.execute("SELECT s.i FROM shared AS s WHERE s.i = ?", (i,)).fetchall()
                wrong.extend([] if rows == [(i,)] else [(i, rows)])

        threads = [threading.Thread(target=work, args=(100 * i,)) for i in range(4)]
        for thread in threads:
            thread.start()
        for thread in threads:
            thread.join()
        self.assertEqual(wrong, [])
        rows = self.connection.execute("SELECT s.i FROM shared AS s ORDER BY s.i LIMIT 100").fetchall()
        self.assertEqual(len(rows), 80)


@needs_file
class RunTest(unittest.TestCase):
    """Runs that end, files that can't be opened, and definitions that are reused."""

    def setUp(self) -> None:
        self.folder = new_folder(self)
        self.path = self.folder / "store.db"

    def open(self, prepare: bool = True) -> piql.Connection:
        connection = piql.connect(self.path, prepare=prepare)
        self.addCleanup(connection.close)
        return connection

    def test_definitions_are_reused(self) -> None:
        with self.open() as connection:
            connection.execute("CREATE TABLE t (a INT, b INT, PRIMARY KEY (a))")
        for _ in range(3):
            with self.open() as connection:
                connection.execute("SELECT b FROM t WHERE a = ?", (1,))
                connection.execute("select b from T where a = [1: key]", (1,))
        with self.open(prepare=False) as connection:
            self.assertEqual(len(connection.schema().definitions), 2)
            connection.execute("SELECT b FROM t WHERE a = ?", (1,))
            self.assertEqual(connection.statements, 2)

    def test_a_query_of_the_schema_is_reused(self) -> None:
        connection = self.open()
        connection.execute("CREATE TABLE t (a INT, b INT, PRIMARY KEY (a))")
        connection.execute("PREPARE mine AS SELECT t.b FROM t WHERE a = [1]")
        connection.execute("SELECT t.b FROM t AS t WHERE t.a = ?", (1,))
        self.assertEqual(list(connection.schema().queries()), ["mine"])

    def test_bounds(self) -> None:
        connection = self.open()
        connection.execute("CREATE TABLE t (a INT, b INT, PRIMARY KEY (a, b), CARDINALITY LIMIT 7 (a))")
        connection.execute("PREPARE mine AS SELECT t.b FROM t WHERE a = [1]")
        self.assertEqual(connection.bounds(), {"mine": (1, 7)})

    def test_a_write_that_finds_no_row_as_an_error(self) -> None:
        with piql.connect(self.path, error_on_missing=True) as connection:
            connection.execute("CREATE TABLE t (a INT, b INT, PRIMARY KEY (a))")
            for text in ("UPDATE t SET b = 1 WHERE a = 7", "DELETE FROM t WHERE a = 7"):
                with self.subTest(text), self.assertRaises(piql.IntegrityError) as caught:
                    connection.execute(text)
                self.assertEqual(caught.exception.number, "E504")

    def test_a_killed_process(self) -> None:
        connection = self.open()
        connection.execute("CREATE TABLE t (a INT, PRIMARY KEY (a))")
        connection.execute("INSERT INTO t VALUES (1)")
        os.kill(engine_of(connection).process.pid, signal.SIGKILL)
        with self.assertRaises(piql.OperationalError) as caught:
            connection.execute("INSERT INTO t VALUES (2)")
        self.assertEqual(caught.exception.status, -signal.SIGKILL)
        self.assertIn("whole or not at all", str(caught.exception))
        rows = connection.execute("SELECT a FROM t ORDER BY a LIMIT 9").fetchall()
        self.assertEqual(rows, [(1,)])

    def test_an_interrupt_leaves_no_report_behind(self) -> None:
        connection = self.open()
        connection.execute("CREATE TABLE t (a INT, PRIMARY KEY (a))")
        engine = engine_of(connection)
        engine.write(b"INSERT INTO t VALUES (1);")
        engine.kill()
        with self.assertRaises(Exception):
            connection.execute("SHOW")
        self.assertIn(len(connection.execute("SELECT a FROM t ORDER BY a LIMIT 9").fetchall()), (0, 1))

    def test_a_locked_file(self) -> None:
        self.open()
        with self.assertRaises(piql.OperationalError) as caught:
            piql.connect(self.path, timeout=0)
        self.assertIn("another process has", str(caught.exception))

    def test_a_file_that_is_none(self) -> None:
        self.path.write_bytes(b"no database" * 1000)
        with self.assertRaises(piql.OperationalError) as caught:
            piql.connect(self.path)
        self.assertIn("no SQLite file", str(caught.exception))
        self.assertEqual(self.path.read_bytes(), b"no database" * 1000)

    def test_the_document_s_script(self) -> None:
        environment = {**os.environ, "PYTHONPATH": str(TOP / "drivers/python")}
        words = [sys.executable, TOP / "docs/scripts/users.py"]
        run = subprocess.run(words, cwd=self.folder, env=environment, capture_output=True, text=True)
        self.assertEqual((run.stdout, run.stderr), ("[('rome',)] at most 1 1 used 1 1\n", ""))

    def test_no_program(self) -> None:
        with self.assertRaises(piql.InterfaceError):
            piql.connect(self.path, program=self.folder / "nothing")

    def test_after_a_fork(self) -> None:
        connection = self.open()
        child = os.fork()
        if child == 0:
            try:
                connection.execute("SHOW")
            except piql.InterfaceError:
                os._exit(7)
            os._exit(0)
        self.assertEqual(os.waitstatus_to_exitcode(os.waitpid(child, 0)[1]), 7)
        self.assertEqual(connection.execute("SHOW").fetchall(), [])


@needs_memory
class MemoryTest(unittest.TestCase):
    """A store in memory."""

    def test_memory(self) -> None:
        with piql.connect(":memory:") as connection:
            connection.execute("CREATE TABLE t (a INT, PRIMARY KEY (a))")
            connection.execute("INSERT INTO t VALUES (1)")
            self.assertEqual(connection.execute("SELECT a FROM t ORDER BY a LIMIT 9").fetchall(), [(1,)])
            with self.assertRaises(piql.OperationalError):
                connection.backup("nowhere.db")
