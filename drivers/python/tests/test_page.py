"""The bound of a page, which a test of a site holds it to."""

import unittest

from helpers import StoreCase, piql

SCRIPT = """
CREATE TABLE m (id INT, v INT, PRIMARY KEY (id));
INSERT INTO m VALUES (1, 10);
PREPARE one AS SELECT x.v FROM m AS x WHERE x.id = [1];
PREPARE all_of AS SELECT x.id FROM m AS x ORDER BY x.id LIMIT 5;
"""


class PageTest(StoreCase):
    script = SCRIPT

    def ask(self, *keys: int) -> None:
        for key in keys:
            self.connection.execute("RUN one (?)", (key,)).fetchall()

    def test_bounds_are_summed_whatever_was_used(self) -> None:
        with piql.page(self.connection, most=4) as found:
            self.ask(1, 2, 3)
            self.connection.execute("RUN all_of")
        self.assertEqual((found.statements, found.bound, found.used), (4, (4, 8), (4, 2)))

    def test_a_page_that_may_use_more_fails_by_its_queries(self) -> None:
        told = "the page may use 3 operations and 7 entries in 3 statements, where 2 operations are allowed: one 2, all_of 1"
        with self.assertRaises(piql.BoundsRose) as caught, piql.page(self.connection, most=2):
            self.ask(1, 2)
            self.connection.execute("RUN all_of")
        self.assertEqual(str(caught.exception), told)

    def test_entries_are_held_against_too(self) -> None:
        with piql.page(self.connection, most=1, entries=5):
            self.connection.execute("RUN all_of")
        with self.assertRaisesRegex(piql.BoundsRose, "1 operations and 4 entries are allowed: all_of 1"):
            with piql.page(self.connection, most=1, entries=4):
                self.connection.execute("RUN all_of")

    def test_refused_statements_count_and_other_errors_are_told(self) -> None:
        with piql.page(self.connection, most=2) as found:
            self.assertRaises(piql.IntegrityError, self.connection.execute, "INSERT INTO m VALUES (1, 1)")
        self.assertEqual((found.statements, found.bound.operations), (1, 2))
        with self.assertRaises(KeyError), piql.page(self.connection, most=0):
            self.ask(1)
            raise KeyError

    def test_what_comes_behind_is_no_part_of_it(self) -> None:
        with piql.page(self.connection, most=0) as found:
            pass
        self.ask(1)
        self.assertEqual(found.statements, 0)

    def test_numbers_that_are_none(self) -> None:
        for most, entries in ((-1, None), ("1", None), (1, -1), (True, None)):
            with self.subTest(most=most, entries=entries), self.assertRaises(piql.ProgrammingError):
                with piql.page(self.connection, most, entries):  # type: ignore[arg-type]
                    pass


if __name__ == "__main__":
    unittest.main()
