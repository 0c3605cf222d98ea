"""Tests of what the documents show: each command prints what is shown, each block of code stands in its file."""

import os
import pathlib
import re
import shutil
import subprocess
import sys
import unittest

from piql.scripts import KEYWORDS

from tools.documents import KINDS, blocks, commands, documents, is_shown, paragraphs
from tools.layers import Layers
from tools.repository import TOP, Repository
from tools.tests.copies import Copy, built

PIQL, PIQL_FILE = built("piql"), built("piql_file")
PLACES = [str(pathlib.Path(sys.executable).parent), "/usr/bin", "/bin"]
WHOLE = re.compile(r"(CREATE|ALTER|INSERT|UPDATE|DELETE|BATCH|PREPARE|RUN|READ|EXPLAIN|SHOW|SELECT)\b")
STATEMENT = re.compile(WHOLE.pattern + r"|(DROP|TRUNCATE|COPY|BEGIN)\b")
SOFT_WORDS = {"ADD", "ALTER", "BATCH", "COLUMN", "COUNTER", "DEFAULT", "IF", "IS", "NULL", "OF", "READ"}
CODE = re.compile(r"`([^`]*)`")
TOOLCHAIN = re.compile(r"`(rattle-kit-\w+ logic [0-9a-f]+)`")
# Of a paragraph, and of the first page.
MOST_WORDS, MOST_LINES = 120, 150
END = re.compile(r"^(\d+) (ok|refused)", re.MULTILINE)


class ShownTest(unittest.TestCase):
    def test_lines_that_are_left_out_stand_for_any(self) -> None:
        for shown, printed in ((["a"], ["a"]), (["a", "..", "d"], ["a", "b", "c", "d"]), (["a", ".."], ["a"])):
            self.assertTrue(is_shown(shown, printed))
        for shown, printed in ((["a"], ["b"]), (["a", "..", "d"], ["a", "d", "e"]), ([".."], []), (["a"], [])):
            self.assertEqual(is_shown(shown, printed), shown == [".."])

    def test_python_stands_in_a_file(self) -> None:
        files = [path.read_text() for path in (TOP / "docs/scripts").glob("*.py")]
        found = [block for document in documents() for block in blocks(document, "python")]
        self.assertGreater(len(found), 2)
        for block in found:
            self.assertTrue(any(block.text in text for text in files), block.place)

    def test_a_worked_proof_stands_in_the_sources(self) -> None:
        parts = [path for part in ("src", "proofs") for path in (TOP / "crates/pq_base" / part).rglob("*.*t")]
        sources = [path.read_text() for path in parts]
        found = [block for document in documents() for block in blocks(document, "rattle", "antt")]
        self.assertGreater(len(found), 1)
        for block in found:
            self.assertTrue(any(block.text in text for text in sources), block.place)

    def test_the_picture_is_that_of_the_crates(self) -> None:
        (block,) = blocks(TOP / "docs/ARCHITECTURE.md", "mermaid")
        self.assertEqual(block.text, Layers(Repository()).picture())

    def test_each_block_is_of_a_kind_that_is_compared_or_says_why_not(self) -> None:
        for document in documents():
            for block in blocks(document, *KINDS, ""):
                self.assertIn(block.kind, KINDS, block.place)
            fences = re.findall(r"^ *```", document.read_text(), re.MULTILINE)
            self.assertEqual(len(fences), 2 * len(list(blocks(document, *KINDS))), document.name)

    def test_commands_that_are_not_run_are_there(self) -> None:
        for document in documents():
            for block in blocks(document, "sh", "ini"):
                for name in re.findall(r"\b(bin/[\w-]+|site/\w+\.py)", block.text):
                    self.assertTrue(os.access(TOP / name, os.X_OK), f"{block.place}: {name}")

    def test_paragraphs_are_short(self) -> None:
        for document in documents():
            for paragraph in paragraphs(document):
                self.assertLessEqual(len(paragraph.split()), MOST_WORDS, f"{document.name}: {paragraph[:60]}")
        self.assertLess(len((TOP / "README.md").read_text().splitlines()), MOST_LINES)

    def test_the_grammar_has_the_keywords(self) -> None:
        (block,) = (block for document in documents() for block in blocks(document, "ebnf"))
        self.assertEqual(set(re.findall(r"\b[A-Z]+\b", block.text)), KEYWORDS | SOFT_WORDS)

    def test_a_wrong_body_is_one_that_is_tried(self) -> None:
        edits = [path.read_text() for folder in ("crates", "mutants") for path in (TOP / folder).rglob("*.edit")]
        (block,) = (block for document in documents() for block in blocks(document, "edit"))
        self.assertTrue(any(block.text in text for text in edits), block.place)

    def test_each_crate_is_told(self) -> None:
        proved, map_of = ((TOP / name).read_text() for name in ("docs/PROVED.md", "docs/ARCHITECTURE.md"))
        for crate in Repository().uses:
            self.assertIn(f"`{crate}`", proved, crate)
            self.assertIn(f"\n| {crate} | ", map_of, crate)

    @unittest.skipUnless(shutil.which("rt"), "the toolchain isn't on the PATH")
    def test_the_toolchain_is_the_one_at_hand(self) -> None:
        version = subprocess.run(["rt", "version"], capture_output=True, text=True, check=True).stdout.strip()
        for name in ("README.md", "docs/PROVED.md"):
            told = TOOLCHAIN.findall((TOP / name).read_text())
            self.assertEqual(told, [version], name)

    def test_links_lead_to_files_and_headings(self) -> None:
        for document in documents():
            for path, heading in re.findall(r"\]\(([^)#:]*)(?:#([^)]*))?\)", document.read_text()):
                place = document.parent / path if path else document
                self.assertTrue(place.exists(), f"{document.name}: {path}")
                if heading:
                    heads = re.findall(r"^#+ (.*)$", place.read_text(), re.MULTILINE)
                    anchors = {re.sub(r"[^\w -]", "", head).lower().replace(" ", "-") for head in heads}
                    self.assertIn(heading, anchors, f"{document.name}: {path}#{heading}")


@unittest.skipUnless(PIQL and PIQL_FILE, "crates/piql or crates/piql_file is not built")
class ConsoleTest(unittest.TestCase):
    """Over the engine: each document's commands one after the other, in a folder of their own."""

    def run_document(self, document: pathlib.Path) -> None:
        copy = Copy(self)
        assert PIQL is not None and PIQL_FILE is not None
        copy.put_documents()
        copy.put_program("piql", PIQL)
        copy.put_program("piql_file", PIQL_FILE)
        shutil.copytree(TOP / "examples", copy.top / "examples")
        exports = ""
        for place, command, output in commands(document):
            if command.startswith("export "):
                exports += command + "; "
                continue
            how = {"stdout": subprocess.PIPE, "stderr": subprocess.STDOUT, "stdin": subprocess.DEVNULL, "text": True}
            how["env"] = {"PATH": os.pathsep.join(PLACES), "PYTHONDONTWRITEBYTECODE": "1"}
            run = subprocess.run(["sh", "-c", exports + command], cwd=copy.top, **how)
            with self.subTest(place, command=command):
                printed = run.stdout.splitlines()
                self.assertTrue(is_shown(output, printed), "\n".join(["printed:", *printed]))

    def test_each_command_prints_what_is_shown(self) -> None:
        for document in documents():
            if any(commands(document)):
                self.run_document(document)


@unittest.skipUnless(PIQL, "crates/piql is not built")
class SqlTest(unittest.TestCase):
    """Over the engine: what SQL.md says of statements."""

    def test_the_first_column_is_refused_and_the_second_is_made(self) -> None:
        statements: list[tuple[str, str]] = []
        for table in (TOP / "docs/SQL.md").read_text().split("| In SQL | Here | To know |\n")[1:]:
            for line in table.split("\n\n")[0].splitlines():
                cells = line.strip("|").split("|")
                statements += [(code, "refused") for code in CODE.findall(cells[0]) if STATEMENT.match(code)]
                statements += [(code, "ok") for code in CODE.findall(cells[1]) if WHOLE.match(code)]
        tables = (TOP / "docs/scripts/sql.piql").read_text()
        script = tables + "".join(f"{statement.removesuffix(';')};\n" for statement, _ in statements)
        assert PIQL is not None
        run = subprocess.run([PIQL, "run"], input=script, capture_output=True, text=True)
        ends = [how for _, how in END.findall(run.stdout)][tables.count(";") :]
        self.assertEqual(len(ends), len(statements))
        self.assertGreater(len(statements), 50)
        for (statement, wanted), how in zip(statements, ends):
            self.assertEqual(how, wanted, statement)


if __name__ == "__main__":
    unittest.main()
