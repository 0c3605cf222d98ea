"""Tests of bin/examples: parts of a block, stored runs, the documents' blocks, and the examples over the engine."""

import contextlib
import io
import subprocess
import unittest

from tools import examples
from tools.repository import TOP
from tools.statuses import USAGE
from tools.tests.copies import built

PIQL = built("piql")
TEXT = "a\nb\nc\nb\nd\n"


class BlocksTest(unittest.TestCase):
    def test_a_program_that_is_not_there_is_told(self) -> None:
        told = io.StringIO()
        with contextlib.redirect_stderr(told):
            self.assertEqual(examples.main(["nothing"]), USAGE)
        self.assertEqual(told.getvalue(), "examples: there is no program nothing\n")

    def test_the_parts_of_a_block_stand_in_order(self) -> None:
        for block in ("a\nb\n", "b\nc\n", "a\n..\nd\n", "b\n..\nb\n"):
            self.assertTrue(examples.stands_in(block, TEXT), block)
        for block in ("b\na\n", "c\n..\na\n", "d\n..\nd\n", "aa\n", ""):
            self.assertEqual(examples.stands_in(block, TEXT), not block, block)

    def test_each_block_stands_in_an_example(self) -> None:
        for kind in examples.ENDINGS:
            self.assertEqual(list(examples.strange_blocks(kind)), [])

    def test_the_stored_runs_are_those_of_the_cases(self) -> None:
        self.assertEqual(list(examples.strange_runs(sorted(examples.EXAMPLES.glob("*.piql")))), [])


@unittest.skipUnless(PIQL, "crates/piql is not built")
class ExamplesTest(unittest.TestCase):
    """Over the engine."""

    def test_the_examples_are_as_written(self) -> None:
        run = subprocess.run([TOP / "bin/examples", str(PIQL)], capture_output=True, text=True)
        self.assertEqual(run.returncode, 0, run.stdout)


if __name__ == "__main__":
    unittest.main()
