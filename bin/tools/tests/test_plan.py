"""Tests of bin/plan: over what piql_plan writes of its stored script, and over the program."""

import pathlib
import re
import subprocess
import sys
import unittest
from xml.etree import ElementTree

from piql.reports import Work
from piql.scripts import tokens
from tools.documents import blocks
from tools.picture import Band, page
from tools.plans import Node, read_node, read_plans
from tools.repository import TOP
from tools.tell import read_script
from tools.tests.copies import built, new_folder

STORED = TOP / "crates/piql_plan"
PROGRAM = built("piql_plan")
SVG = "{http://www.w3.org/2000/svg}"


def run_plan(*words: pathlib.Path | str) -> subprocess.CompletedProcess[str]:
    return subprocess.run([sys.executable, "-B", TOP / "bin/plan", *words], capture_output=True, text=True)


def texts(drawn: str) -> list[str]:
    """The lines of text of a page, which has to be whole XML."""
    return ["".join(it.itertext()) for it in ElementTree.fromstring(drawn).iter(f"{SVG}text")]


class ReadingTest(unittest.TestCase):
    def test_each_kind_of_node_is_read(self) -> None:
        lines = {
            "node lookup u users key (name) bound 3 3 size 3": Node(
                "lookup", "u users", "key (name)", "", Work(3, 3), 3
            ),
            "node range s subs key (owner, target) limit 100 bound 1 100 size 100": Node(
                "range", "s subs", "key (owner, target)", "limit 100", Work(1, 100), 100
            ),
            "node stop t thoughts index 1 (owner, stamp DESC) first 5 bound 105 505 size 5": Node(
                "stop", "t thoughts", "index 1 (owner, stamp DESC)", "first 5", Work(105, 505), 5
            ),
            "node filter first users bound 0 0 size 3": Node("filter", "first users", "", "", Work(0, 0), 3),
            "node sort bound 0 0 size 3": Node("sort", "", "", "", Work(0, 0), 3),
            "node cut 3 bound 0 0 size 3": Node("cut", "", "", "3", Work(0, 0), 3),
            "node project bound 0 0 size 3": Node("project", "", "", "", Work(0, 0), 3),
        }
        for line, node in lines.items():
            self.assertEqual(read_node(line), node)

    def test_a_line_that_is_none_is_an_error(self) -> None:
        with self.assertRaises(ValueError):
            read_node("node lookup bound 1")

    def test_the_nodes_of_each_query_sum_to_its_bound(self) -> None:
        found = list(read_plans((STORED / "stdout").read_text()))
        self.assertEqual([told.report.end.number for told in found], list(range(1, 14)))
        bounds = [(told.cost, query.bound) for told in found for query in told.report.queries()]
        self.assertEqual([bound for _, bound in bounds], [Work(104, 403), Work(106, 605), Work(1, 1)])
        for cost, bound in bounds:
            self.assertEqual(cost, bound)
        self.assertEqual([len(told.nodes) for told in found], [0, 0, 0, 0, 8, 6, 4, 0, 4, 0, 0, 0, 0])

    def test_the_rounds_of_each_plan_are_those_of_its_reads(self) -> None:
        found = list(read_plans((STORED / "stdout").read_text()))
        self.assertEqual([told.rounds for told in found], [0, 0, 0, 0, 3, 3, 1, 0, 1, 0, 0, 0, 0])
        for told in found:
            # One for each read, and over an index one more for the rows of its entries.
            reads = [1 + node.sequence.startswith("index") for node in told.nodes if node.sequence]
            self.assertEqual(told.rounds, sum(reads))


class PageTest(unittest.TestCase):
    def setUp(self) -> None:
        self.script = new_folder(self) / "feed.piql"
        self.script.write_bytes((STORED / "stdin").read_bytes())

    def test_each_query_is_drawn(self) -> None:
        run = run_plan("--lines", STORED / "stdout", self.script)
        self.assertEqual((run.returncode, run.stderr), (1, ""))
        found = texts(run.stdout)
        heads = ["5: feed", "6: explain", "7: town", "9: select", *(f"{number}: refused" for number in range(10, 14))]
        self.assertEqual([text for text in found if re.match(r"\d+: ", text)], heads)
        self.assertIn("bound: 104 operations, 403 entries, 3 rounds", found)
        wants = "bound: 106 operations, 605 entries, 3 rounds; wants index 1 of thoughts (owner, stamp DESC)"
        self.assertIn(wants, found)
        self.assertEqual(run.stdout.count(' class="reads"/>') + run.stdout.count(' class="box"/>'), 22)
        self.assertTrue(any(text.startswith("E304 t: ") for text in found))

    def test_the_picture_of_the_documents_is_the_one_that_is_drawn(self) -> None:
        run = run_plan("--lines", STORED / "stdout", self.script)
        self.assertEqual((TOP / "docs/feed-plan.svg").read_text(), run.stdout)
        shown = [block.text for block in blocks(TOP / "docs/BOUNDS.md", "text") if block.text.startswith("node ")]
        self.assertEqual(len(shown), 1)
        self.assertIn(shown[0], (STORED / "stdout").read_text())

    def test_nodes_that_sum_to_another_bound_are_told(self) -> None:
        lines = self.script.with_name("lines")
        text = (STORED / "stdout").read_text().replace("first 3 bound 100 300", "first 3 bound 100 299")
        lines.write_text(text)
        run = run_plan("--lines", lines, self.script)
        self.assertEqual((run.returncode, run.stdout), (70, ""))
        self.assertEqual(run.stderr, "plan: the nodes of feed sum to 104 402, and its bound is 104 403\n")

    def test_a_statement_with_marks_of_the_page_is_drawn(self) -> None:
        statement = "EXPLAIN SELECT t.a FROM t WHERE t.a <> 1 AND t.b = '</svg>&'"
        drawn = page("a & b", [Band("1: explain", statement, [], "none", False)])
        self.assertEqual(texts(drawn), ["a & b", "1: explain", statement, "none"])

    def test_no_script_is_told(self) -> None:
        run = run_plan("nowhere.piql")
        self.assertEqual((run.returncode, run.stderr), (2, "plan: there is no script nowhere.piql\n"))


@unittest.skipUnless(PROGRAM, "crates/piql_plan is not built")
class ProgramTest(unittest.TestCase):
    """Over the program."""

    def test_the_examples_are_drawn(self) -> None:
        assert PROGRAM is not None
        for script in sorted((TOP / "examples").glob("*.piql")):
            run = subprocess.run([PROGRAM], input=script.read_bytes(), capture_output=True)
            self.assertIn(run.returncode, (0, 1), script.name)
            pieces = read_script(str(script))
            for told in read_plans(run.stdout.decode()):
                number, bound = told.report.end.number, told.report.end.bound
                bounds = [query.bound for query in told.report.queries()]
                if not told.report.is_refused() and tokens(pieces.piece(number).decode())[0].is_word("SELECT"):
                    bounds.append(bound)
                self.assertEqual([told.cost] if told.nodes else [], bounds, (script.name, number))


if __name__ == "__main__":
    unittest.main()
