"""Tests of tables in documents: their rows, rows in the place of others, and numbers in a cell."""

import unittest

from tools.tables import Lost, cells_of, line_of, rows_of, with_numbers, with_rows

HEADER = "| What | Limit |"
TEXT = f"before\n\n{HEADER}\n|---|---|\n| a \\| b | 1 to 9 |\n| c | |\n\nbehind\n"


class TablesTest(unittest.TestCase):
    def test_rows_are_their_cells(self) -> None:
        self.assertEqual(rows_of(TEXT, HEADER), [["a \\| b", "1 to 9"], ["c", ""]])

    def test_a_row_is_written_as_it_was_read(self) -> None:
        for line in ("| a \\| b | 1 to 9 |", "| c | |", "| | d |"):
            self.assertEqual(line_of(cells_of(line)), line)

    def test_rows_come_in_the_place_of_others(self) -> None:
        self.assertEqual(with_rows(TEXT, HEADER, lambda rows: rows), TEXT)
        short = f"before\n\n{HEADER}\n|---|---|\n| e | 2 |\n\nbehind\n"
        self.assertEqual(with_rows(TEXT, HEADER, lambda _: [["e", "2"]]), short)
        bare = f"{HEADER}\n|---|---|\n"
        self.assertEqual(with_rows(bare, HEADER, lambda _: [["e", "2"]]), bare + "| e | 2 |\n")

    def test_a_table_stands_just_once(self) -> None:
        for text in ("nothing", TEXT + TEXT):
            with self.assertRaises(Lost):
                rows_of(text, HEADER)

    def test_numbers_come_in_the_place_of_those_of_a_cell(self) -> None:
        for cell, numbers, wanted in (
            ("64", [65], "65"),
            ("1 to 1,000", [2000], "1 to 2,000"),
            ("at most 16, of a query", [1_048_576, 1_048_576], "at most 1,048,576, of a query"),
            ("50,000 operations and 50,000 entries", [7, 8], "7 operations and 8 entries"),
            ("4,096 bytes; one more isn't sent", [5], "5 bytes; one more isn't sent"),
        ):
            self.assertEqual(with_numbers(cell, numbers), wanted)

    def test_a_cell_has_as_many_numbers_as_are_wanted(self) -> None:
        for cell, numbers in (("4 each", [4, 5]), ("none", [4]), ("4 or 5", [4]), ("4 or 5", [4, 5, 6])):
            self.assertIsNone(with_numbers(cell, numbers), cell)


if __name__ == "__main__":
    unittest.main()
