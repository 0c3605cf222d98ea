"""Tests of what trials/counters compares the engine with, on examples that were worked out by hand."""

import pathlib
import random
import sys
import unittest

TOP = pathlib.Path(__file__).resolve().parents[3]
sys.path[:0] = [str(TOP / "drivers/python"), str(pathlib.Path(__file__).resolve().parents[1])]

from pairs import code_of, counted_pairs, key_of, told_pairs  # noqa: E402 - the trial stands beside the tests
from piql.scripts import is_one_piece  # noqa: E402
from tables import COLUMNS, LIKES, PEOPLE, Group, Write  # noqa: E402
from tables import drawn, groups, made, no_rows, number_of, refusal_of  # noqa: E402

ANN = Write(PEOPLE, (1,), (1, "a", True, 0))
BOB = Write(PEOPLE, (2,), (2, None, True, None))
LIKE = Write(LIKES, (1, 8), (1, 8, "x", 3))


class RulesTest(unittest.TestCase):
    def setUp(self) -> None:
        self.rows = no_rows()
        for write in (ANN, BOB, LIKE):
            self.assertIsNone(refusal_of(self.rows, write))
            self.rows = made(self.rows, write)

    def test_texts(self) -> None:
        self.assertEqual(ANN.text(), "INSERT INTO people VALUES (1, 'a', TRUE, 0);")
        self.assertEqual(Write(LIKES, (1, 8)).text(), "DELETE FROM likes WHERE fan = 1 AND post = 8;")
        update = Write(PEOPLE, (2,), None, (("town", None), ("ok", False)))
        self.assertEqual(update.text(), "UPDATE people SET town = NULL, ok = FALSE WHERE id = 2;")

    def test_refusals(self) -> None:
        for write, wanted in (
            (ANN, "E503"),
            (Write(PEOPLE, (3,)), "E504"),
            (Write(LIKES, (1, 0), None, (("note", 3),)), "E504"),
            (Write(LIKES, (3, 8), (3, 8, None, None)), "E505"),
            (Write(PEOPLE, (1,)), "E506"),
            (Write(PEOPLE, (1,), None, (("ok", False),)), None),
            (Write(PEOPLE, (2,)), None),
        ):
            self.assertEqual(refusal_of(self.rows, write), wanted, write)

    def test_a_limit(self) -> None:
        for fan in range(3, 8):
            self.rows = made(self.rows, Write(PEOPLE, (fan,), (fan, "b", True, 0)))
            self.rows = made(self.rows, Write(LIKES, (fan, 0), (fan, 0, None, 3)))
        self.assertEqual(refusal_of(self.rows, Write(LIKES, (2, 0), (2, 0, "x", 3))), "E507")
        self.assertIsNone(refusal_of(self.rows, Write(LIKES, (2, 8), (2, 8, "x", 3))))

    def test_counts(self) -> None:
        for group, wanted in (
            (Group("of_town", ("a",)), 1),
            (Group("of_town", ("b",)), 0),
            (Group("of_ok", (True, "a")), 1),
            (Group("of_ok", (False, "a")), 0),
            (Group("of_age", (0,)), 1),
            (Group("of_kind", ("x", 8)), 1),
            (Group("of_fan", (1,)), 1),
        ):
            self.assertEqual(number_of(self.rows, group), wanted, group)
        self.rows = made(self.rows, Write(PEOPLE, (2,), None, (("town", "a"), ("age", 0))))
        self.assertEqual(number_of(self.rows, Group("of_town", ("a",))), 2)
        self.assertEqual(number_of(self.rows, Group("of_ok", (True, "a"))), 2)
        self.rows = made(self.rows, Write(PEOPLE, (2,)))
        self.assertEqual(number_of(self.rows, Group("of_age", (0,))), 1)

    def test_bytes(self) -> None:
        self.assertEqual(code_of(("a\0b",)).hex(), "106100ff620001")
        self.assertEqual(code_of((-9, True)).hex(), "107ffffffffffffff71001")
        self.assertEqual(key_of(Group("of_kind", ("x", 8))).hex(), "050007" + "10780001" + "108000000000000008")
        pairs = counted_pairs(self.rows)
        one = "0000000000000001"
        self.assertEqual(pairs[bytes.fromhex("05000310610001")].hex(), one)
        self.assertEqual(pairs[bytes.fromhex("0500041001" + "10610001")].hex(), one)
        # Of two people one has a town and an age; the other is in no group. There is one like.
        self.assertEqual(len(pairs), 3 + 3)
        held = {b"\x04": b"a", b"\x05x": b"b"}
        self.assertEqual(told_pairs([(b"\x03x", b""), *held.items(), (b"\x06x", b"")]), held)

    def test_drawn_writes_are_statements(self) -> None:
        chance, rows, seen = random.Random(5), no_rows(), set()
        for _ in range(1500):
            write = drawn(chance, rows)
            self.assertTrue(is_one_piece(write.text().encode()))
            refusal = refusal_of(rows, write)
            seen.add(refusal or (write.table, write.row is None, bool(write.sets)))
            rows = rows if refusal else made(rows, write)
            self.assertTrue(all(len(row) == len(COLUMNS[table]) for table in rows for row in rows[table].values()))
        self.assertEqual(len(seen), 5 + 6)
        self.assertEqual(len(list(groups())), 4 + 8 + 3 + 6 + 7 + 2)


if __name__ == "__main__":
    unittest.main()
