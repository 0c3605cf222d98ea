"""Tests of the numbers of refusals and limits: the documents have them, and what differs is told and written."""

import contextlib
import io
import pathlib
import re
import shutil
import unittest

from tools import declared, limits, numbers, refusals
from tools.limit_rows import OF_ROWS
from tools.repository import TOP, Repository
from tools.statuses import USAGE
from tools.tests.copies import new_folder

SOURCES = (
    *("pq_base/src/word_table.rt", "pq_base/src/refusal_place.rt", "pq_base/src/count_word.rt"),
    *("pq_base/src/refusal.rt", "pq_print/src/report.rt", "pq_print/src/refusal.rt"),
    *("pq_base/specs/Words.antt", "pq_base/specs/WordPlaces.antt", "pq_print/specs/Refusals.antt"),
)
DOCUMENTS = (numbers.FORMATS, numbers.BOUNDS, *numbers.REFUSALS, *(document for document, _ in OF_ROWS))


class SourcesTest(unittest.TestCase):
    def test_the_documents_have_the_numbers_of_the_sources(self) -> None:
        self.assertEqual(numbers.main([]), 0)

    def test_no_limit_stands_twice_and_each_has_a_place(self) -> None:
        names = [it.what for it in limits.LIMITS]
        self.assertEqual(sorted(set(names)), sorted(names))
        self.assertTrue(all(it.places for it in limits.LIMITS))

    def test_a_word_that_is_unknown_is_refused(self) -> None:
        with contextlib.redirect_stderr(io.StringIO()):
            self.assertEqual(numbers.main(["--read"]), USAGE)


class ChangedTest(unittest.TestCase):
    """Over a copy of the sources that declare numbers, and of the documents, in which something is changed."""

    def setUp(self) -> None:
        self.top = new_folder(self)
        places = [place.path(Repository()).relative_to(TOP) for it in limits.LIMITS for place in it.places]
        others = ("crates.txt", *DOCUMENTS, *(f"crates/{source}" for source in SOURCES))
        for path in {*places, *map(pathlib.Path, others)}:
            (self.top / path).parent.mkdir(parents=True, exist_ok=True)
            shutil.copy(TOP / path, self.top / path)

    def change(self, path: str, *changes: tuple[str, str]) -> None:
        text = (self.top / path).read_text()
        for old, new in changes:
            self.assertIn(old, text)
            text = text.replace(old, new)
        (self.top / path).write_text(text)

    def flaws(self) -> str:
        """What is told of the sources, and of the documents."""
        repository = Repository(self.top)
        found = [*refusals.flaws_of(repository), *limits.flaws_of(repository), *numbers.written(repository)[1]]
        return "\n".join(found)

    def written(self) -> dict[str, str]:
        """The lines that are written anew, of each document that isn't as it was."""
        texts, _ = numbers.written(Repository(self.top))
        found = {}
        for document, text in texts.items():
            old = (self.top / document).read_text().split("\n")
            if new := [line for line in text.split("\n") if line not in old]:
                found[document] = "\n".join(new)
        return found

    def test_nothing_is_told_or_written_where_all_agree(self) -> None:
        self.assertEqual((self.flaws(), self.written()), ("", {}))

    def test_a_limit_that_changes_in_one_place_is_told(self) -> None:
        self.change("crates/pq_definitions/src/table_checks.rt", ("TABLES: usize = 64", "TABLES: usize = 65"))
        told = "tables: name_refusal of pq_schema Definitions has 64, TABLES of pq_definitions/table_checks.rt 65"
        self.assertIn(told, self.flaws())

    def test_a_limit_that_changes_is_written_into_each_table(self) -> None:
        self.change("crates/pq_definitions/src/table_checks.rt", ("TABLES: usize = 64", "TABLES: usize = 65"))
        self.change("crates/pq_schema/specs/Definitions.antt", ("nat_le 64 (", "nat_le 65 ("))
        self.change("crates/pq_schema/specs/Schema.antt", ("schema.tables ≤ 64", "schema.tables ≤ 65"))
        self.assertEqual(self.flaws(), "")
        written = self.written()
        self.assertEqual(written["docs/LANGUAGE.md"], "| tables | 65 |")
        self.assertIn("256, of these 65 tables", written["docs/PRODUCTION.md"])
        self.assertIn("| 14 | `tables` | at most 65 |", written["docs/FORMATS.md"])
        self.assertIn("| tables | 65 | `TABLES` of", written["docs/BOUNDS.md"])
        self.assertEqual(len(written), 4)

    def test_what_differs_is_told_until_it_is_written(self) -> None:
        self.change("docs/LANGUAGE.md", ("| tables | 64 |", "| tables | 60 |"))
        self.assertIn("-| tables | 60 |\n+| tables | 64 |", "\n".join(numbers.compared(Repository(self.top))))
        self.assertEqual(numbers.compared(Repository(self.top), write=True), [])
        self.assertEqual(numbers.compared(Repository(self.top)), [])
        self.assertEqual((self.top / "docs/LANGUAGE.md").read_text(), (TOP / "docs/LANGUAGE.md").read_text())

    def test_limits_of_one_cell_have_to_be_equal(self) -> None:
        self.change("crates/pq_index_keep/src/check.rt", ("CONDITIONS: usize = 16", "CONDITIONS: usize = 20"))
        row = "predicates of a query, conditions of a write"
        told = f"the cell `16 each` of {row} has no place for predicates of a query 16, conditions of a write 20"
        self.assertIn(f"docs/LANGUAGE.md: {told}", self.flaws())

    def test_a_place_that_is_lost_is_told(self) -> None:
        self.change("crates/pq_names/src/names.rt", ("const NAME_BYTES", "const LETTERS"))
        with self.assertRaises(declared.Absent):
            numbers.written(Repository(self.top))
        flaws = "\n".join(numbers.compared(Repository(self.top)))
        self.assertIn("bytes of a name: NAME_BYTES of pq_names/names.rt: there is no number as = {}", flaws)
        self.assertIn("crates/pq_names/src/names.rt: LETTERS is a limit that bin/tools/limits.py has not", flaws)

    def test_a_limit_without_a_row_is_told(self) -> None:
        self.change("docs/LANGUAGE.md", ("| bytes of a name | 32 |\n", "| bytes of a word | 32 |\n"))
        self.assertIn("docs/LANGUAGE.md: bytes of a name has no rows in | What | Limit |", self.flaws())
        self.assertIn("docs/LANGUAGE.md: bytes of a word has a row in | What | Limit |, and is nothing", self.flaws())

    def add_refusal(self) -> None:
        self.change("crates/pq_base/src/word_table.rt", ('"E514",', '"E514", "E515",'))
        place = "/// E515.\npub const NEW_ONE: usize = 37;"
        variant = "    /// E515: new.\n    NewOne { name: PText },\n"
        self.change("crates/pq_base/src/refusal_place.rt", ("usize = 36;", f"usize = 36;\n\n{place}"))
        self.change("crates/pq_base/src/refusal.rt", ("    /// E514", f"{variant}    /// E514"))

    def test_a_refusal_without_a_row_is_told(self) -> None:
        self.add_refusal()
        flaws = self.flaws()
        for told in (
            "pq_base/specs/Words.antt: refusals has not the words of pq_base/src/word_table.rt",
            "pq_print/src/refusal.rt: number_of has not NEW_ONE for NewOne",
            f"docs/FORMATS.md: NewOne has no rows in {numbers.CODES}",
            f"docs/FORMATS.md: E515 has no rows in {numbers.DECIDED}",
            "docs/REFUSALS.md: E515 has no rows in heads",
        ):
            self.assertIn(told, flaws)

    def test_a_row_without_a_refusal_is_told(self) -> None:
        row = "| E515 | `NewOne { name }` | `E515 NAME` | new |"
        self.change("docs/FORMATS.md", ("\n| E514 | `Sum", f"\n{row}\n| E514 | `Sum"))
        self.change("docs/REFUSALS.md", ("**E514 TABLE", "**E515 NAME: new.** It is.\n\n**E514 TABLE"))
        self.assertIn(f"docs/FORMATS.md: NewOne has a row in {numbers.CODES}, and is nothing that the", self.flaws())
        self.assertIn("docs/REFUSALS.md: E515 has a row in heads, and is nothing that the sources have", self.flaws())

    def test_a_refusal_with_rows_is_written_in_its_place(self) -> None:
        self.add_refusal()
        self.change("docs/FORMATS.md", ("\n| E514 | `Sum", "\n| | `NewOne` | | new |\n| E514 | `Sum"))
        text = numbers.written(Repository(self.top))[0]["docs/FORMATS.md"]
        self.assertRegex(text, r"\| E514 \| `Sum [^\n]*\n\| E515 \| `NewOne \{ name \}` \| `E515 NAME` \| new \|\n")

    def test_a_number_that_changes_is_written_wherever_it_stands(self) -> None:
        self.change("crates/pq_base/src/word_table.rt", ('"E405"', '"E409"'))
        self.assertIn("pq_base/specs/Words.antt: refusals has not the words", self.flaws())
        self.assertIn("pq_base/src/refusal.rt: the comment of NoCounter has not the number E409", self.flaws())
        self.assertIn("pq_print/specs/Refusals.antt: refusal_number of NoCounter is not E409", self.flaws())
        written = self.written()
        self.assertEqual(len(re.findall(r"^\| E409 \|", written["docs/FORMATS.md"], re.MULTILINE)), 2)
        for document in numbers.REFUSALS:
            self.assertTrue(written[document].startswith("**E409 NAME: no counter has the name.**"))

    def test_fields_are_those_of_the_variant(self) -> None:
        self.change("crates/pq_base/src/refusal.rt", ("NotPaged,", "NotPaged { name: PText },"))
        self.assertIn("| E404 | `NotPaged { name }` | `E404 NAME` |", self.written()["docs/FORMATS.md"])
        self.assertTrue(self.written()["docs/REFUSALS.md"].startswith("**E404 NAME: the query has no pages."))

    def test_a_word_for_a_count_has_a_row(self) -> None:
        self.change("docs/FORMATS.md", ("| `writes` |", "| `reads` |"))
        self.assertIn(f"docs/FORMATS.md: writes has no rows in {numbers.WORDS}", self.flaws())
        self.change("docs/REFUSALS.md", ("| `stop` |", "| `start` |"))
        self.assertIn(f"docs/REFUSALS.md: stop has no rows in {numbers.WAYS_OUT}", self.flaws())
        self.change("crates/pq_base/src/count_word.rt", ("pub const STOP", "pub const HALT"))
        self.assertIn("pq_base/src/count_word.rt: HALT is not the place of halt", self.flaws())

    def test_nothing_is_written_where_the_sources_differ(self) -> None:
        self.change("docs/LANGUAGE.md", ("| tables | 64 |", "| tables | 60 |"))
        self.change("crates/pq_definitions/src/table_checks.rt", ("TABLES: usize = 64", "TABLES: usize = 65"))
        self.assertEqual(len(numbers.compared(Repository(self.top), write=True)), 2)
        self.assertIn("| tables | 60 |", (self.top / "docs/LANGUAGE.md").read_text())

    def test_a_row_that_stands_twice_stays(self) -> None:
        row = "| E403 | `Cursor` | `E403` | twice |"
        self.change("docs/FORMATS.md", ("\n| E404 | `Not", f"\n{row}\n| E404 | `Not"))
        self.assertIn(f"docs/FORMATS.md: Cursor has 2 rows in {numbers.CODES}", self.flaws())
        self.assertEqual(self.written(), {})

    def test_a_table_that_is_lost_is_told(self) -> None:
        self.change("docs/FORMATS.md", (numbers.CODES, "| Code |"))
        self.assertIn(f"docs/FORMATS.md: the table {numbers.CODES} stands there 0 times", self.flaws())
        self.change("docs/HOST.md", ("| What | At most |", "| What | Most |"))
        self.assertIn("docs/HOST.md: the table | What | At most | stands there 0 times", self.flaws())


if __name__ == "__main__":
    unittest.main()
