"""Tests of what trials/memory --file says of a run and of the file behind it."""

import contextlib
import pathlib
import sqlite3
import sys
import tempfile
import unittest

sys.path.insert(0, str(pathlib.Path(__file__).resolve().parents[1]))

import reopening  # noqa: E402 - the trial stands beside the tests
from program import OPENING, Ended  # noqa: E402

REPORTS = [b"1 ok bound 1 0 used 1 0\n", b"row 1\n2 ok rows 1 bound 1 1 used 1 1\n"]
WHOLE = Ended(0, OPENING + b"".join(REPORTS))
AGAIN = Ended(0, OPENING)
# Before the first statement, behind it, and behind the second.
STATES = [[], [(b"\x01", b"a")], [(b"\x01", b"b")]]


class StrangeTest(unittest.TestCase):
    def said(self, output: bytes, held: list, status: int | None = 7, again: Ended = AGAIN) -> str | None:
        return reopening.strange(Ended(status, output), again, held, WHOLE, STATES)

    def test_the_tables_before_and_behind_the_statement_at_hand_are_allowed(self) -> None:
        for output, allowed in ((b"", (0, 1)), (OPENING, (0, 1)), (OPENING + REPORTS[0], (1, 2))):
            for place, held in enumerate(STATES):
                with self.subTest(output=output, place=place):
                    self.assertEqual(self.said(output, held) is None, place in allowed)

    def test_behind_the_whole_run_the_last_tables_stand(self) -> None:
        self.assertIsNone(self.said(WHOLE.output, STATES[2], status=0))
        self.assertIsNotNone(self.said(WHOLE.output, STATES[1], status=0))

    def test_want_of_memory_within_a_statement_is_a_fault_of_the_store(self) -> None:
        self.assertIsNone(self.said(OPENING, STATES[0], status=5))
        self.assertIsNotNone(self.said(OPENING, STATES[2], status=5))

    def test_another_end_is_strange(self) -> None:
        self.assertEqual(self.said(OPENING, STATES[0], status=4), "status 4")
        self.assertEqual(self.said(OPENING, STATES[0], status=None), "no end")
        self.assertEqual(self.said(OPENING + b"1 ok", STATES[0]), "no whole reports")

    def test_a_file_that_is_not_opened_again_is_strange(self) -> None:
        self.assertEqual(self.said(OPENING, STATES[0], again=Ended(6, b"")), "opened again with status 6")


class PairsTest(unittest.TestCase):
    def test_pairs_come_in_the_order_of_their_keys(self) -> None:
        with tempfile.TemporaryDirectory() as folder:
            path = f"{folder}/a.db"
            self.assertEqual(reopening.pairs(path), [])
            with contextlib.closing(sqlite3.connect(path)) as file:
                file.execute("CREATE TABLE kv(k BLOB PRIMARY KEY, v BLOB NOT NULL)")
                file.executemany("INSERT INTO kv VALUES (?, ?)", [(b"\x02", b""), (b"\x01\xff", b"x"), (b"\x01", b"y")])
                file.commit()
            self.assertEqual(reopening.pairs(path), [(b"\x01", b"y"), (b"\x01\xff", b"x"), (b"\x02", b"")])

    def test_each_script_has_a_statement_a_line(self) -> None:
        for name, statements in reopening.scripts().items():
            with self.subTest(name):
                self.assertTrue(statements and all(line.endswith(b";\n") for line in statements))


if __name__ == "__main__":
    unittest.main()
