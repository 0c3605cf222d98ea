"""The rules of the made cases, beside worked examples of the documents."""

import pathlib
import sys
import unittest

sys.path.append(str(pathlib.Path(__file__).resolve().parents[1]))

from made import Family, row_sets
from queries import Column, Item, Parameter, Predicate, Query, Relation, Stop, Table
from values import component, cursor, holds, order, written

COLUMNS = {"id": "INT", "p": "INT NULL", "tag": "TEXT(8) NULL"}
ROWS = [{"id": 1, "p": None, "tag": None}, {"id": 2, "p": None, "tag": None}, {"id": 3, "p": 1, "tag": "a"}]
TABLE = Table("c", COLUMNS, ("id",), ((1, ("tag",)),))


def ordered(descending: bool, stop: Stop) -> Query:
    return Query((Relation("c", TABLE),), (), (Item(Column("c", "tag"), descending),), stop)


class Values(unittest.TestCase):
    def test_null_is_equal_to_itself_in_the_order_alone(self) -> None:
        self.assertEqual(order(None, None), 0)
        self.assertLess(order(None, -(2**63)), 0)
        self.assertLess(order(None, ""), 0)
        self.assertFalse(any(holds(it, None, None) for it in ("=", "<>", "<", "<=", ">", ">=")))
        self.assertFalse(holds("<>", None, 5))

    def test_values_are_written_as_in_reports(self) -> None:
        self.assertEqual([written(it) for it in (None, True, -12, "it's")], ["NULL", "true", "-12", "'it''s'"])

    def test_codes_are_those_of_the_table(self) -> None:
        self.assertEqual(component(None, False).hex(), "08")
        self.assertEqual(component(None, True).hex(), "18")
        self.assertEqual(component("a", True).hex(), "109efffe")
        self.assertEqual(component(False, True).hex(), "10ff")
        self.assertEqual(component(-(2**63), False).hex(), "100000000000000000")
        self.assertEqual(cursor(2, [7, 2], [False, False]), "AQACEIAAAAAAAAAHEIAAAAAAAAAC")


class Answers(unittest.TestCase):
    def test_null_comes_first_and_descending_last(self) -> None:
        for descending, ids in ((False, [1, 2, 3]), (True, [3, 1, 2])):
            answer = ordered(descending, Stop("LIMIT", 10)).answer({"c": ROWS}, ())
            self.assertEqual([combination["c"]["id"] for combination in answer], ids)

    def test_a_full_page_has_a_cursor_and_the_last_one_is_short(self) -> None:
        query = ordered(False, Stop("PAGINATE", 3))
        pages = list(query.pages(5, query.answer({"c": ROWS}, ())))
        self.assertEqual([len(page.rows) for page in pages], [3, 0])
        self.assertEqual(pages[0].cursor, cursor(5, ["a", 3], [False, False]))

    def test_is_null_bounds_nothing(self) -> None:
        relation, tag = (Relation("c", TABLE),), Column("c", "tag")
        is_null = Query(relation, (Predicate(tag, "IS NULL", None),), (), Stop("LIMIT", 10))
        equal = Query(relation, (Predicate(tag, "=", Parameter(1)),), (), None)
        self.assertFalse(is_null.is_bounded())
        self.assertTrue(equal.is_bounded())
        self.assertEqual([it["c"]["id"] for it in is_null.answer({"c": ROWS}, ())], [1, 2])
        self.assertEqual(equal.answer({"c": ROWS}, (None,)), [])


class Made(unittest.TestCase):
    def test_all_collections_of_up_to_four_pairs_are_there(self) -> None:
        sets = row_sets(("INT", "BOOL"))
        self.assertEqual(len(sets), 1 + 9 + 45 + 165 + 495)
        self.assertEqual(len(set(sets)), len(sets))

    def test_there_are_enough_queries(self) -> None:
        self.assertGreater(sum(1 for asked in Family(("INT", "INT")).queries() if asked.query.is_bounded()), 5000)


if __name__ == "__main__":
    unittest.main()
