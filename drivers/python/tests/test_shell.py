"""The prompt: what it prints for answers, refusals and commands, and what it does with a pipe."""

import contextlib
import io
import os
import pty
import subprocess
import unittest

from helpers import PIQL_FILE, TOP, StoreCase, needs_file, new_folder, piql
from piql.prompt import is_end
from piql.shell import Shell, underlined
from piql.scripts import Place
from piql.tables import table

SCRIPT = """
CREATE TABLE t (a INT, b TEXT(50) NULL, PRIMARY KEY (a));
INSERT INTO t VALUES (7, 'it''s');
INSERT INTO t VALUES (12, NULL);
INSERT INTO t VALUES (13, 'x');
PREPARE page AS SELECT x.a, x.b FROM t AS x ORDER BY x.a PAGINATE 2;
"""
TABLE = """\
 a | b
---+-----
 7 | it's
12 | NULL"""


class TableTest(unittest.TestCase):
    """Tables and marks, without an engine."""

    def test_table(self) -> None:
        self.assertEqual(table(["a", "b"], [(7, "it's"), (12, None)]), TABLE)
        self.assertEqual(table(["a"], [("x\n\0y",), (True,)]), "a\n--------\nx\\n\\x00y\ntrue")

    def test_underlined(self) -> None:
        self.assertEqual(underlined("SELECT a\n\tFROM FROM t", Place(2, 7)), "  \tFROM FROM t\n  \t     ^")


class ShellCase(StoreCase):
    """A prompt over a store."""

    script = SCRIPT

    def said(self, *lines: str) -> str:
        """What is printed for some lines."""
        shell, rest = Shell(self.connection), ""
        with contextlib.redirect_stdout(io.StringIO()) as out:
            for line in lines:
                rest = shell.line(rest, line)
        self.assertEqual(rest, "")
        return out.getvalue()


class ShellTest(ShellCase):
    """A prompt's lines."""

    def test_an_answer(self) -> None:
        numbers = "at most 1 operation, 2 entries; used 1, 2\n"
        self.assertEqual(self.said("RUN page;"), f"{TABLE}\n2 rows; .next has more\n{numbers}")

    def test_the_next_page(self) -> None:
        said = self.said("RUN", "page", ";", ".next", ".next")
        self.assertIn("13 | x\n1 row\n", said)
        self.assertIn("no further page", said)

    def test_several_statements_on_a_line(self) -> None:
        said = self.said("SHOW; RUN nothing", "(';'", ");")
        self.assertIn("  1 CREATE TABLE t (a INT, b TEXT(50) NULL, PRIMARY KEY (a));\n", said)
        self.assertIn("E401 nothing", said)

    def test_a_refusal(self) -> None:
        said = self.said("SELECT a FROM t", "WHERE a = 1 OR a = 2;")
        self.assertIn("  WHERE a = 1 OR a = 2;\n              ^\nway out: one query with a parameter", said)

    def test_a_write_that_finds_no_row(self) -> None:
        self.assertIn("no row has this key\nat most 2", self.said("DELETE FROM t WHERE a = 99;"))

    def test_a_counter(self) -> None:
        said = self.said("CREATE TABLE u (a INT, PRIMARY KEY (a)); CREATE COUNTER c OF u (a); READ c (7);", ".counters")
        self.assertIn("rows\n----\n   0\n1 row\nat most 1 operation, 1 entry; used 1, 0\n", said)
        self.assertTrue(said.endswith("CREATE COUNTER c OF u (a);\n"))
        self.assertNotIn("COUNTER", self.said(".tables"))

    def test_commands(self) -> None:
        self.assertIn("CREATE TABLE t", self.said(".tables"))
        self.assertIn("PREPARE page", self.said(".queries"))
        self.assertIn("page  |          1 |       2", self.said(".bounds"))
        for word in (".help", "help", "HELP;", " help "):
            self.assertIn(".next       the next page", self.said(word))
        self.assertIn("there is no .x", self.said(".x"))
        self.assertRegex(self.said(".indexes"), r"t +\| key +\| a\n")

    def test_define(self) -> None:
        said = self.said(".define by_b", "SELECT x.a FROM t AS x", "WHERE x.b = 'x' LIMIT 2;", ".define by_b;", "RUN by_b;")
        self.assertIn("there is no SELECT yet", said)
        self.assertIn("query by_b: at most 3 operations, 4 entries\n", said)
        left = 256 - len(self.connection.refresh().definitions)
        self.assertIn(f"{left} of 256 definitions are left\n a\n--\n13\n1 row\n", said)
        self.assertEqual(list(self.connection.schema().queries())[-1], "by_b")
        for name in ("", " 1a", " a b", " a;b", " é"):
            self.assertIn(".define wants a name", self.said(f".define{name}"))
        self.assertIn("E201 by_b", self.said("SELECT a FROM t LIMIT 1;", ".define by_b"))

    def test_a_select_with_a_parameter(self) -> None:
        said = self.said("SELECT x.b FROM t AS x WHERE x.a = [1: id];", ".define by_a", "RUN by_a (13);")
        self.assertIn("a SELECT has no parameter: write the value in its place, or .define NAME", said)
        self.assertIn("query by_a: at most 1 operation, 1 entry\n", said)
        self.assertIn("b\n-\nx\n1 row\n", said)

    def test_what_is_no_refusal(self) -> None:
        self.assertEqual(self.said("RUN page (?);"), "1 value wanted, 0 given\n")
        self.assertEqual(self.said("RUN page ('\udcff');"), "this line isn't UTF-8, and is left out\n")

    def test_a_refusal_has_no_markdown(self) -> None:
        said = self.said("HELLO WORLD;")
        self.assertIn("LANGUAGE.md has the form of each", said)
        self.assertNotIn("](", said)


class BatchTest(ShellCase):
    """Several writes as one, at a prompt."""

    def test_over_several_lines(self) -> None:
        lines = (
            "BATCH",
            "  INSERT INTO t VALUES (20, 'it''s; one'),",
            "  -- the next; one",
            "  INSERT INTO t VALUES (21, NULL),",
            "  UPDATE t SET b = 'y' WHERE a = 20 IF b = 'it''s; one',",
            "  DELETE FROM t WHERE a = 21;",
        )
        self.assertEqual(self.said(*lines), "ok\nat most 10 operations, 4 entries; used 6, 0\n")
        self.assertIn("b\n-\ny\n1 row\n", self.said("SELECT x.b FROM t AS x WHERE x.a = 20;"))
        self.assertIn("0 rows", self.said("SELECT x.b FROM t AS x WHERE x.a = 21;"))
        self.said("DELETE FROM t WHERE a = 20;")

    def test_the_mark_is_under_the_refused_write(self) -> None:
        first = "BATCH INSERT INTO t VALUES (30, 'é'),"
        for lines, head, marked, indent in (
            (("BATCH DELETE FROM t WHERE a = 99, DELETE FROM t WHERE a = 7;",), "E513 1 E504 t: ", 0, " " * 6),
            ((f"{first} DELETE FROM t WHERE a = 99;",), "E513 2 E504 t: ", 0, " " * 38),
            ((first, "\tUPDATE t", "SET a = 1 WHERE a = 7;"), "E513 2 E502 t: ", 1, "\t"),
            (("BATCH", "INSERT INTO t VALUES ('x', 'x'),", "DELETE FROM t WHERE a = 7;"), "E513 1 E501 t a: ", 1, ""),
            # Where the tokens spell nothing it is under the token, before which are 62 bytes and 40.
            ((first, " DELETE FROM t WHERE a IS 7;"), "E104 62: ", 1, " " * 23),
            ((first, " RUN page;"), "E104 40: ", 1, " "),
        ):
            with self.subTest(lines):
                said = self.said(*lines)
                self.assertTrue(said.startswith(head), said)
                self.assertIn(f"\n  {lines[marked]}\n  {indent}^\nway out: ", said)
        self.assertIn("0 rows", self.said("SELECT x.b FROM t AS x WHERE x.a = 30;"))

    def test_a_condition_is_told_without_its_value(self) -> None:
        said = self.said("BATCH DELETE FROM t WHERE a = 13,", "DELETE FROM t WHERE a = 7 IF a = 7 AND b = 'secret';")
        self.assertTrue(said.startswith("E513 2 E511 t 2: the row is another than was read. Condition 2 "), said)
        self.assertIn("doesn't hold of it: b = ?.\n", said)

    def test_it_is_no_select(self) -> None:
        batch = "BATCH INSERT INTO t VALUES (40, 'z'), DELETE FROM t WHERE a = 13;"
        said = self.said("SELECT x.b FROM t AS x WHERE x.a = 40;", batch, ".define of_batch", "RUN of_batch;")
        self.assertIn("query of_batch: at most 1 operation, 1 entry\n", said)
        self.assertIn("b\n-\nz\n1 row\n", said)
        # What may be asked for next stays the page behind that of the last answer with pages.
        batch = "BATCH DELETE FROM t WHERE a = 40, INSERT INTO t VALUES (13, 'x');"
        self.assertIn("13 | x\n1 row\n", self.said("RUN page;", batch, ".next"))


class PromptTest(unittest.TestCase):
    """Words of a prompt, without one."""

    def test_ends(self) -> None:
        for line in ("exit", "quit", "EXIT;", " .quit ", ".exit", "quit ;"):
            self.assertTrue(is_end(line), line)
        for line in ("", ";", "exit now;", "quitting", ".next"):
            self.assertFalse(is_end(line), line)


@needs_file
class ProgramTest(unittest.TestCase):
    """The program itself."""

    def setUp(self) -> None:
        self.folder = new_folder(self)
        self.words = [TOP / "bin/piql-shell", self.folder / "store.db"]

    def test_a_pipe(self) -> None:
        script = SCRIPT.encode() + b"RUN page; RUN nothing;"
        piped = subprocess.run(self.words, input=script, capture_output=True)
        plain = subprocess.run([str(PIQL_FILE), self.folder / "other.db", "run"], input=script, capture_output=True)
        self.assertEqual((piped.stdout, piped.returncode), (plain.stdout, plain.returncode))
        self.assertEqual(piped.returncode, 1)

    def test_a_terminal(self) -> None:
        terminal, inner = pty.openpty()
        self.addCleanup(os.close, terminal)
        environment = {**os.environ, "HOME": str(self.folder), "TERM": "dumb"}
        process = subprocess.Popen(self.words, stdin=inner, stdout=inner, env=environment, start_new_session=True)
        os.close(inner)
        os.write(terminal, b"CREATE TABLE t (a INT,\n  PRIMARY KEY (a));\n.tables\nSHOW -- all\n;\nexit\n")
        said = b""
        with contextlib.suppress(OSError):
            while part := os.read(terminal, 4096):
                said += part
        self.assertEqual(process.wait(), 0)
        self.assertIn(b"CREATE TABLE t (a INT, PRIMARY KEY (a));", said)
        history = (self.folder / ".piql_history").read_text().splitlines()
        self.assertEqual(history, ["CREATE TABLE t (a INT, PRIMARY KEY (a));", ".tables", "SHOW -- all", ";", "exit"])
