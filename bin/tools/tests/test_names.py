"""Tests of the looking up of names: what is found, what isn't, and that the documents name what is there."""

import unittest

from tools import names

FOUND = [
    "`Refusal` of `pq_base/refusal.rt` has a variant for each.",
    "`put_refusal` of `pq_print/refusal.rt`, as `refusal_text` of `pq_print Refusals` says.",
    "`pq_base/specs/Values` has the values.",
    "`pq_print` prints (`put_refusal` in `refusal.rt`).",
]
LOST = [
    ("`NoSuchName` of `pq_base/refusal.rt`", "NoSuchName isn't in pq_base/refusal.rt"),
    ("`pq_base/nowhere.rt` has it", "there is no pq_base/nowhere.rt"),
    ("`refusal_text` of `pq_base Values`", "refusal_text isn't in pq_base Values"),
    ("`pq_print/refusal.rt` (`put_nothing`)", "put_nothing isn't in pq_print/refusal.rt"),
]


class NamesTest(unittest.TestCase):
    def test_what_is_there_is_found(self) -> None:
        for line in FOUND:
            self.assertEqual(list(names.flaws(line, [])), [], line)

    def test_what_is_not_there_is_told(self) -> None:
        for line, flaw in LOST:
            self.assertIn(flaw, list(names.flaws(line, [])), line)

    def test_the_documents_name_what_is_there(self) -> None:
        self.assertEqual(names.main([]), 0)


if __name__ == "__main__":
    unittest.main()
