"""Tests of what trials/selects finds in reports, on reports that were written by hand."""

import pathlib
import random
import sys
import unittest

TOP = pathlib.Path(__file__).resolve().parents[3]
FOLDERS = ("drivers/python", "trials", "trials/nulls", "trials/selects")
sys.path[:0] = [str(TOP / folder) for folder in FOLDERS]

from asked import Queries, changed  # noqa: E402 - the trial stands beside the tests
from pairing import Pair, difference  # noqa: E402
from piql.reports import Report, read_reports  # noqa: E402
from piql.scripts import is_one_piece  # noqa: E402

TEXT = "SELECT m.v FROM m WHERE m.id = 1"
ROWS = "row 7, 'x'\nrow 8, NULL\n"
PREPARED = "query q whole bound 2 3\n1 ok bound 1 0 used 1 0\n"
WITH_INDEX = "query q stop 1 bound 2 3\nindex m 2 (v DESC)\n1 ok bound 4 0 used 4 0\n"
RUN = ROWS + "1 ok rows 2 next AQ bound 2 3 used 2 2\n"
SELECTED = ROWS + "1 ok rows 2 bound 2 3 used 2 3\n"
WANTED = "1 refused E406 m bound 0 0 used 0 0\n"


def report(text: str) -> Report:
    (found,) = read_reports(text)
    assert isinstance(found, Report)
    return found


def pair(before: str, prepared: str, run: str = "", behind: str = "", text: str = TEXT) -> Pair:
    rest = [report(it) for it in (run, behind) if it]
    return Pair(text, report(before), report(prepared), *rest)


def refused(fields: str) -> str:
    return f"1 refused {fields} bound 0 0 used 0 0\n"


class PairTest(unittest.TestCase):
    def test_what_is_right(self) -> None:
        for found in (
            pair(SELECTED, PREPARED, RUN, SELECTED),
            pair(WANTED, WITH_INDEX, RUN, SELECTED),
            pair(refused("E304 m"), refused("E304 m")),
            pair(refused("E104 9"), refused("E104 22")),
            pair(refused("E303"), PREPARED, RUN, SELECTED, TEXT.replace("1", "[1]")),
            pair(refused("E303"), refused("E304 m"), text=TEXT.replace("1", "[1]")),
            pair(refused("E203 v"), refused("E203 v"), text=TEXT.replace("1", "[1]")),
        ):
            self.assertEqual(difference(found, None), "")
        self.assertEqual(difference(pair(SELECTED, PREPARED, RUN, SELECTED), ROWS.splitlines()), "")

    def test_what_is_wrong(self) -> None:
        turned = "row 8, NULL\nrow 7, 'x'\n" + SELECTED.removeprefix(ROWS)
        for found in (
            pair(turned, PREPARED, RUN, SELECTED),
            pair(SELECTED, PREPARED, RUN, turned),
            pair(RUN, PREPARED, RUN, SELECTED),
            pair(SELECTED.replace("bound 2 3", "bound 2 4"), PREPARED, RUN, SELECTED),
            pair(SELECTED.replace("used 2 3", "used 3 3"), PREPARED, RUN, SELECTED),
            pair(SELECTED, WITH_INDEX, RUN, SELECTED),
            pair(WANTED, PREPARED, RUN, SELECTED),
            pair(WANTED, WITH_INDEX.replace("index m", "index n"), RUN, SELECTED),
            pair(WANTED, WITH_INDEX, RUN, WANTED),
            pair(refused("E104 22"), refused("E104 22")),
            pair(refused("E304 n"), refused("E304 m")),
            pair(refused("E304 m").replace("used 0", "used 1"), refused("E304 m")),
            pair(SELECTED, refused("E304 m")),
            pair(SELECTED, PREPARED, RUN, SELECTED, TEXT.replace("1", "[1]")),
            pair(refused("E304 m"), refused("E304 m"), text=TEXT.replace("1", "[1]")),
        ):
            self.assertNotEqual(difference(found, None), "", found.before.ending)
        self.assertNotEqual(difference(pair(SELECTED, PREPARED, RUN, SELECTED), ROWS.splitlines()[::-1]), "")


class DrawnTest(unittest.TestCase):
    def test_queries_are_one_statement(self) -> None:
        chance = random.Random(7)
        queries = list(Queries(chance).all(300))
        for query in queries:
            for text in (query.text, query.parametric, changed(chance, query.text)):
                self.assertTrue(text.startswith("SELECT"), text)
                self.assertTrue(is_one_piece(f"{text};".encode()), text)
        self.assertGreater(sum(query.rows is not None for query in queries), 50)
        self.assertGreater(sum(query.text != query.parametric for query in queries), 100)


if __name__ == "__main__":
    unittest.main()
