"""Tests of the words of bin/piql and bin/piql_file."""

import os
import sqlite3
import unittest

from tools.tests.copies import new_folder
from tools.words import FORMS, Asked, Wrong, help_of, read_words, usage

WRONG = [
    ([], "a word is missing"),
    (["walk"], "`walk` is none of run, check and fill"),
    (["RUN"], "`RUN` is none of run, check and fill"),
    ([os.fsdecode(b"\xff")], "`\ufffd` is none of run, check and fill"),
    (["fill"], "fill takes one number"),
    (["fill", "0"], "fill takes one number"),
    (["fill", "007"], "fill takes one number"),
    (["fill", "-1"], "fill takes one number"),
    (["fill", "20001"], "fill takes one number"),
    (["fill", "1", "2"], "fill takes one number"),
    (["run", "nowhere.piql"], "there is no script nowhere.piql"),
    (["run", "/"], "/ is a folder, and no script"),
]


class WordsTest(unittest.TestCase):
    def wrong(self, name: str, words: list[str]) -> Wrong:
        with self.assertRaises(Wrong) as caught:
            read_words(name, words)
        return caught.exception

    def test_wrong_words_are_told(self) -> None:
        for words, line in WRONG:
            with self.subTest(words):
                wrong = self.wrong("piql", words)
                self.assertIn(line, str(wrong))
                self.assertEqual(wrong.status, 2)

    def test_right_words_are_a_run(self) -> None:
        self.assertEqual(read_words("piql", ["run"]), Asked(["run"], []))
        self.assertEqual(read_words("piql", ["check", __file__]), Asked(["check"], [__file__]))
        self.assertEqual(read_words("piql", ["fill", "20000"]), Asked(["fill", "20000"], []))

    def test_input_is_read_by_a_run_without_scripts(self) -> None:
        self.assertTrue(read_words("piql", ["run"]).reads_input)
        self.assertFalse(read_words("piql", ["run", __file__]).reads_input)
        self.assertFalse(read_words("piql", ["fill", "1"]).reads_input)

    def test_the_usage_has_each_form(self) -> None:
        for form in FORMS:
            self.assertIn(f"bin/piql {form} ", usage("piql") + " ")
        self.assertIn("bin/piql_file PATH fill N ", usage("piql_file"))
        self.assertIn("8 the script is too long", help_of("piql"))


class FileTest(unittest.TestCase):
    def setUp(self) -> None:
        self.folder = new_folder(self)

    def told(self, path: str) -> str:
        """What is told of a path that no store can be at."""
        with self.assertRaises(Wrong) as caught:
            read_words("piql_file", [path, "run"])
        self.assertEqual(caught.exception.status, 5)
        return str(caught.exception)

    def test_a_path_that_no_store_can_be_at(self) -> None:
        self.assertIn("is a folder, and no file", self.told(str(self.folder)))
        self.assertIn("there is no folder", self.told(str(self.folder / "none" / "a.db")))
        self.assertIn("the path of the file is empty", self.told(""))

    def test_a_text_is_left_as_it_is(self) -> None:
        path = self.folder / "a.txt"
        path.write_text("no store")
        self.assertIn("is no SQLite file", self.told(str(path)))
        self.assertEqual(path.read_text(), "no store")

    def test_words_come_before_the_file(self) -> None:
        with self.assertRaises(Wrong) as caught:
            read_words("piql_file", [str(self.folder), "walk"])
        self.assertEqual(caught.exception.status, 2)
        with self.assertRaises(Wrong) as caught:
            read_words("piql_file", [str(self.folder)])
        self.assertEqual(caught.exception.status, 2)

    def test_a_path_that_a_store_can_be_at(self) -> None:
        new, empty, other = (str(self.folder / name) for name in ("new.db", "empty.db", "other.db"))
        open(empty, "w").close()
        with sqlite3.connect(other) as database:
            database.execute("CREATE TABLE t (a)")
        database.close()
        for path in (new, empty, other):
            self.assertEqual(read_words("piql_file", [path, "run"]), Asked([path, "run"], []))
        self.assertFalse(os.path.exists(new))


if __name__ == "__main__":
    unittest.main()
