"""Writes on a condition and numbers that are added to: what is sent, and what is told where one doesn't hold."""

import unittest

from helpers import piql
from pipes import PipeCase
from piql.conditions import conditions_of, shown
from piql.scripts import tokens

# A statement, and its predicates or conditions as a message has them.
CONDITIONS = [
    ("UPDATE m SET v = 8 WHERE id = 1 IF v = 7;", ["v = ?"]),
    ("UPDATE m SET v ADD -2 WHERE id = 1 IF v >= -8 AND w IS NULL AND v <> 'AND'", ["v >= ?", "w IS NULL", "v <> ?"]),
    ("update if set batch = 2 where if = 1 if if = 1 and batch is null;", ["if = ?", "batch IS NULL"]),
    ("DELETE FROM if WHERE if = 1 AND batch = 2 IF null IS NULL", ["null IS NULL"]),
    ("DELETE FROM m WHERE id = ? IF v < ?", ["v < ?"]),
    ("DELETE FROM m WHERE id = 1", []),
    ("DELETE FROM m", []),
    ("UPDATE m SET v = 1 WHERE", []),
    ("SELECT m.v FROM m WHERE m.id = [1: if] AND if = TRUE ORDER BY m.v", ["m.id = ?", "if = ?"]),
    ("PREPARE q AS SELECT * FROM m, n WHERE m.v = n.w AND n.w IS NULL LIMIT 9;", ["m.v = n.w", "n.w IS NULL"]),
    ("SELECT * FROM m LIMIT 9", []),
]
# A write with its values, and what is sent.
SENT = [
    (
        "UPDATE m SET v ADD ?, w = ? WHERE id=? IF v >= ? AND w <>?",
        (-2, "b'", 7, 2, "IF"),
        b"UPDATE m SET v ADD -2, w = 'b''' WHERE id=7 IF v >= 2 AND w <>'IF';",
    ),
    ("DELETE FROM m WHERE id = ? IF w IS NULL -- ?", (1,), b"DELETE FROM m WHERE id = 1 IF w IS NULL;"),
    # NULL stays the word that it is: the engine refuses it behind a comparison.
    ("UPDATE m SET v = ? WHERE id = 1 IF w = ?", (None, None), b"UPDATE m SET v = NULL WHERE id = 1 IF w = NULL;"),
]
WRITE = "UPDATE m SET v = ? WHERE id = ? IF w = ? AND v >= ?"


class ConditionTest(unittest.TestCase):
    """Where conditions stand."""

    def test_conditions(self) -> None:
        for text, wanted in CONDITIONS:
            with self.subTest(text):
                self.assertEqual([shown(it) for it in conditions_of(tokens(text))], wanted)


class SentTest(PipeCase):
    """What reaches the pipe."""

    def test_what_is_sent(self) -> None:
        connection = self.open()
        for text, values, wanted in SENT:
            with self.subTest(text):
                self.assertEqual(connection.execute(text, values).rowcount, 1)
                self.assertEqual(self.sent(), wanted)


class ChangedTest(PipeCase):
    """The row is another than was read."""

    lie = "%d refused E511 m 2 bound 2 1 used 1 1\n"

    def test_changed(self) -> None:
        connection = self.open()
        with self.assertRaises(piql.Changed) as caught:
            connection.execute(WRITE, (1, 7, "secret", 987))
        error = caught.exception
        self.assertIsInstance(error, piql.OperationalError)
        self.assertEqual((error.number, error.table, error.condition, error.condition_text), ("E511", "m", 2, "v >= ?"))
        told = "another than was read. Condition 2 doesn't hold of it: v >= ?. Way out: read the row"
        self.assertIn(told, str(error))
        self.assertNotIn("secret", str(error))
        self.assertNotIn("987", str(error))
        self.assertEqual(connection.execute(WRITE, (1, 7, "secret", 987)).rowcount, 1)

    def test_many_stop_at_the_first(self) -> None:
        cursor = self.open().cursor()
        with self.assertRaises(piql.Changed):
            cursor.executemany(WRITE, [(1, 7, "a", 1), (2, 7, "a", 1)])
        self.assertEqual(cursor.rowcount, 0)


class SumTest(PipeCase):
    """A number that can't be added to."""

    lie = "%d refused E514 m v bound 2 1 used 1 1\n"

    def test_the_sum(self) -> None:
        with self.assertRaises(piql.DataError) as caught:
            self.open().execute("UPDATE m SET v ADD ? WHERE id = 1", (7,))
        self.assertEqual((caught.exception.number, caught.exception.fields), ("E514", {"table": "m", "column": "v"}))
