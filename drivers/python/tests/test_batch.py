"""A batch: several writes are made as one, and the refusal of one of them says which."""

import unittest

from helpers import StoreCase, piql
from pipes import PipeCase
from piql.batch import batch_of_rows
from piql.scripts import STATEMENT_BYTES, tokens
from piql.statements import read_statement
from piql.writes import WRITES, begins_of, write_at

INSERT = "INSERT INTO m VALUES (?, ?)"
# A batch, and its writes.
PARTED = [
    ("BATCH INSERT INTO m VALUES (1, 7);", ["INSERT INTO m VALUES (1, 7)"]),
    (
        "batch insert into m values (1, 7), UPDATE m SET v = 1, w ADD 2 WHERE id = 1 IF v = ',DELETE', delete from m where a=1",
        [
            "insert into m values (1, 7)",
            "UPDATE m SET v = 1, w ADD 2 WHERE id = 1 IF v = ',DELETE'",
            "delete from m where a=1",
        ],
    ),
    ("BATCH DELETE FROM m WHERE id = 1 -- , DELETE\n, DELETE FROM m WHERE id = ?", ["DELETE FROM m WHERE id = 1", "DELETE FROM m WHERE id = ?"]),
    ("BATCH", []),
    ("BATCH;", []),
]
# What a report has of a batch, and what is told of it: the class, the number, the place and the table.
REFUSALS: list[tuple[str, type[piql.Error], str, object, str | None]] = [
    ("E513 2 E503 m", piql.IntegrityError, "E503", 2, None),
    ("E513 3 E504 m", piql.IntegrityError, "E504", 3, None),
    ("E513 2 E511 m 2", piql.Changed, "E511", 2, "m"),
    ("E513 1 E514 m v", piql.DataError, "E514", 1, None),
    ("E513 2 E202 m", piql.ProgrammingError, "E202", 2, None),
    ("E512 1049582", piql.DataError, "E512", None, None),
    ("E206 writes", piql.NotSupportedError, "E206", None, None),
]
SECRET = "se'cret"


class PartsTest(unittest.TestCase):
    """Where the writes of a batch stand."""

    def test_parts(self) -> None:
        for text, wanted in PARTED:
            with self.subTest(text):
                self.assertEqual([write_at(text, i) for i in range(1, len(wanted) + 1)], wanted)
                self.assertEqual(len(begins_of(tokens(text))), len(wanted))
                self.assertEqual((write_at(text, 0), write_at(text, len(wanted) + 1)), ("", ""))


class SentTest(PipeCase):
    """What reaches the pipe."""

    def test_one_statement(self) -> None:
        connection = self.open()
        with connection.batch() as batch:
            batch.execute(INSERT, (1, "a;b"))
            batch.execute("UPDATE m SET v ADD ? WHERE id = ? IF v >= ?; -- ?", (-1, 2, 1))
            batch.execute(" DELETE FROM m -- ?\n WHERE id = 3")
            self.assertEqual((len(batch), batch.rowcount, batch.bound), (3, 0, None))
        wanted = (
            b"BATCH INSERT INTO m VALUES (1, 'a;b'), UPDATE m SET v ADD -1 WHERE id = 2 IF v >= 1,"
            b"  DELETE FROM m -- ?\n WHERE id = 3;"
        )
        self.assertEqual(self.sent(), wanted)
        self.assertEqual((len(batch), batch.rowcount), (0, 3))
        self.assertIsNotNone(batch.bound)
        self.assertIsNotNone(batch.used)

    def test_as_a_text(self) -> None:
        connection = self.open()
        text = "BATCH INSERT INTO m VALUES (?, 1), DELETE FROM m WHERE id = ?"
        self.assertEqual(connection.execute(text, (1, 2)).rowcount, 2)
        self.assertEqual(self.sent(), b"BATCH INSERT INTO m VALUES (1, 1), DELETE FROM m WHERE id = 2;")

    def test_nothing_is_sent(self) -> None:
        connection = self.open()
        before = connection.statements
        with connection.batch() as batch:
            pass
        with self.assertRaises(ZeroDivisionError), connection.batch() as batch:
            batch.execute(INSERT, (1, 2))
            raise ZeroDivisionError
        batch.make()
        self.assertEqual((connection.statements, batch.rowcount), (before, 0))

    def test_what_is_no_write(self) -> None:
        batch = self.open().batch()
        for text in ("RUN q", "SELECT * FROM m LIMIT 1", "CREATE TABLE m (a INT, PRIMARY KEY (a))", "BATCH DELETE FROM m"):
            with self.subTest(text), self.assertRaises(piql.ProgrammingError):
                batch.execute(text)
        with self.assertRaises(piql.ProgrammingError):
            batch.execute(INSERT, (1,))
        with self.assertRaises(piql.DataError):
            batch.execute(INSERT, (1, 2**63))
        self.assertEqual(len(batch), 0)

    def test_full(self) -> None:
        batch = self.open().batch()
        for i in range(WRITES):
            batch.execute(INSERT, (i, 1))
        with self.assertRaises(piql.BatchFull):
            batch.execute(INSERT, (WRITES, 1))
        batch.make()
        self.assertEqual(batch.rowcount, WRITES)

    def test_full_by_bytes(self) -> None:
        connection = self.open()
        batch = connection.batch()
        head = len("BATCH INSERT INTO m VALUES (1, ''), INSERT INTO m VALUES (2, '');")
        batch.execute(INSERT, (1, "a" * 1000))
        with self.assertRaises(piql.BatchFull):
            batch.execute(INSERT, (2, "b" * (STATEMENT_BYTES - head - 999)))
        batch.execute(INSERT, (2, "b" * (STATEMENT_BYTES - head - 1000)))
        batch.make()
        self.assertEqual(len(self.sent()), STATEMENT_BYTES)

    def test_rows_with_room(self) -> None:
        write = read_statement("INSERT INTO m VALUES (?, ?)").with_one_place()
        text = "\u00e9" * 200
        rows = [f"{i}, '{text}'" for i in range(100, 300)]
        one, ends = len(", INSERT INTO m VALUES (100, '')") + 400, len("BATCH ;") - len(", ")
        count = (STATEMENT_BYTES - ends) // one
        sent = batch_of_rows(write, rows)
        self.assertEqual((len(sent.data()), sent.fillings), (ends + count * one, tuple(rows[:count])))
        # The last row fits up to the last byte, and then no more.
        left = STATEMENT_BYTES - ends - count * one
        for more, wanted in ((left, count), (left + 1, count - 1)):
            longer = [*rows[: count - 1], f"100, '{text}{'x' * more}'", *rows]
            self.assertEqual(len(batch_of_rows(write, longer).fillings), wanted)
        self.assertEqual(len(batch_of_rows(write, ["1, 2"] * (WRITES + 1)).fillings), WRITES)
        self.assertEqual(batch_of_rows(write, [f"1, '{'x' * STATEMENT_BYTES}'"]).fillings, ())


class RefusedTest(unittest.TestCase):
    """What is told of a refusal."""

    def test_refusals(self) -> None:
        for line, kind, number, place, table in REFUSALS:
            with self.subTest(line):
                self.refused(line, kind, number, place, table)

    def refused(self, line: str, kind: type[piql.Error], number: str, place: object, table: str | None) -> None:
        """One refusal, of a batch whose second and third write have conditions."""
        case = RefusedCase(line)
        case.setUp()
        self.addCleanup(case.doCleanups)
        connection = case.open()
        with self.assertRaises(kind) as caught, connection.batch() as batch:
            batch.execute(INSERT, (1, SECRET))
            batch.execute("UPDATE m SET v = ? WHERE id = ? IF w = ? AND v >= ?", (1, 7, SECRET, 987))
            batch.execute("DELETE FROM m WHERE id = ?", (1,))
        error = caught.exception
        self.assertEqual((error.number, error.place), (number, place))
        self.assertEqual(batch.rowcount, 0)
        if table is not None:
            self.assertEqual(error.table, table)
        if place == 2:
            self.assertEqual(error.write, "UPDATE m SET v = ? WHERE id = ? IF w = ? AND v >= ?")
        self.assertIn(line, str(error))
        for secret in ("cret", "987"):
            self.assertNotIn(secret, str(error))


class RefusedCase(PipeCase):
    """A connection to a stand-in that answers a refusal."""

    def __init__(self, line: str) -> None:
        super().__init__("runTest")
        self.lie = f"%d refused {line} bound 2 1 used 1 1\n"

    def runTest(self) -> None:
        """None of its own."""


class StoreTest(StoreCase):
    """Batches over an engine."""

    script = """
        CREATE TABLE items (id INT, stock INT, PRIMARY KEY (id));
        CREATE TABLE orders (id INT, who TEXT(20), PRIMARY KEY (id), CARDINALITY LIMIT 2 (who));
        CREATE TABLE lines (ord INT, item INT, PRIMARY KEY (ord, item), FOREIGN KEY (ord) REFERENCES orders,
            FOREIGN KEY (item) REFERENCES items);
        INSERT INTO items VALUES (7, 1);
        PREPARE stock AS SELECT i.stock FROM items AS i WHERE i.id = [1];
        PREPARE order_of AS SELECT o.who FROM orders AS o WHERE o.id = [1];
    """

    def buy(self, number: int) -> int:
        """A purchase of the one item."""
        with self.connection.batch() as batch:
            batch.execute("INSERT INTO orders VALUES (?, ?)", (number, "ann"))
            batch.execute("INSERT INTO lines VALUES (?, 7)", (number,))
            batch.execute("UPDATE items SET stock ADD -1 WHERE id = 7 IF stock >= 1")
        return batch.rowcount

    def stock(self) -> object:
        """How many of the item there are."""
        return self.connection.execute("RUN stock (7)").fetchone()[0]

    def test_all_or_none(self) -> None:
        self.assertEqual(self.buy(1), 3)
        self.assertEqual(self.stock(), 0)
        with self.assertRaises(piql.Changed) as caught:
            self.buy(2)
        self.assertEqual((caught.exception.place, caught.exception.number), (3, "E511"))
        self.assertEqual(self.connection.execute("RUN order_of (2)").fetchall(), [])
        with self.assertRaises(piql.IntegrityError) as other:
            self.connection.execute("BATCH DELETE FROM items WHERE id = 7")
        self.assertEqual((other.exception.number, other.exception.place, other.exception.table), ("E506", 1, "lines"))
        with self.connection.batch() as batch:
            batch.execute("DELETE FROM lines WHERE ord = 1 AND item = 7")
            batch.execute("DELETE FROM orders WHERE id = 1")
            batch.execute("UPDATE items SET stock ADD 1 WHERE id = 7")
        self.assertEqual((batch.rowcount, self.stock()), (3, 1))
        with self.assertRaises(piql.IntegrityError) as missing, self.connection.batch() as batch:
            batch.execute("UPDATE items SET stock = 5 WHERE id = 7")
            batch.execute("DELETE FROM orders WHERE id = 99")
        self.assertEqual((missing.exception.number, missing.exception.place, self.stock()), ("E504", 2, 1))

    def test_in_a_pipeline(self) -> None:
        with self.connection.pipeline() as pipeline:
            made = pipeline.execute("BATCH INSERT INTO items VALUES (?, 1), DELETE FROM items WHERE id = ?", (8, 8))
            read = pipeline.run("stock", 8)
        self.assertEqual((made.rowcount, read.rows), (2, []))

    def test_a_syntax_error(self) -> None:
        with self.assertRaises(piql.ProgrammingError) as caught, self.connection.batch() as batch:
            batch.execute("INSERT INTO items VALUES (?, 1)", (9,))
            batch.execute("DELETE FROM items WHERE id IS ?", (9,))
        place = caught.exception.place
        self.assertEqual((caught.exception.number, place), ("E104", (1, 67)))
