"""Tests of bin/dump: over a file whose bytes are written here, and there and back over the examples."""

import contextlib
import pathlib
import re
import sqlite3
import stat
import subprocess
import sys
import unittest

from tools import dump
from tools.repository import TOP
from tools.tests.copies import built, new_folder

PIQL_FILE = built("piql_file")
EXAMPLES = sorted((TOP / "examples").glob("*.piql"))
TABLES = [
    b"CREATE TABLE a (id INT, ok BOOL, PRIMARY KEY (id));",
    b"CREATE TABLE b (name TEXT(9), a INT NULL, PRIMARY KEY (name), FOREIGN KEY (a) REFERENCES a);",
]
QUERY = b"PREPARE q AS SELECT b.name FROM b AS b WHERE b.name = [1];"
READY = b"\x01\x00"
# The pairs of two tables with a query between them: definitions, rows and index entries.
PAIRS = {
    b"\x01\x00\x01": READY + TABLES[0],
    b"\x01\x00\x02": READY + QUERY,
    b"\x01\x00\x03": READY + TABLES[1],
    b"\x02\x01\x10\x7f" + b"\xff" * 7: b"\x02" + b"\xff" * 8 + b"\x01",
    b"\x02\x01\x10\x80" + b"\x00" * 6 + b"\x07": b"\x02" + b"\x00" * 7 + b"\x07\x00",
    b"\x02\x02\x10it's\x00\x01": b"\x02\x00\x04it's" + b"\xff" * 8,
    b"\x02\x02\x10x\ny\x00\x01": b"\x42\x00\x00\x00\x02\x00\x03x\ny",
    b"\x03\x02\x01\x08\x10x\ny\x00\x01": b"",
    b"\x03\x02\x01\x10\x7f" + b"\xff" * 7 + b"\x10it's\x00\x01": b"",
}
# The first table with two added columns: a stored row leaves out the defaults at its end.
ADDED = [
    b"ALTER TABLE a ADD COLUMN n INT DEFAULT 5;",
    b"ALTER TABLE a ADD COLUMN s TEXT(9) NULL DEFAULT NULL;",
]
GROWN = PAIRS | {
    b"\x01\x00\x04": b"\x02\x00" + ADDED[0],
    b"\x01\x00\x05": b"\x02\x00" + ADDED[1],
    b"\x02\x01\x10\x80" + b"\x00" * 6 + b"\x08": b"\x04" + b"\x00" * 7 + b"\x08\x00" + b"\x00" * 7 + b"\x05\x00\x00",
}
# A counter over a column of the second table: of its two rows one has no NULL there.
COUNTER = b"CREATE COUNTER c OF b (a);"
COUNTED = {
    b"\x01\x00\x04": b"\x02\x00" + COUNTER,
    b"\x05\x00\x04\x10\x7f" + b"\xff" * 7: b"\x00" * 7 + b"\x01",
}
GROWN_ROWS = """\
INSERT INTO a VALUES (-1, TRUE, 5, NULL);
INSERT INTO a VALUES (7, FALSE, 5, NULL);
INSERT INTO a VALUES (8, FALSE, 5, '');
"""
SCRIPT = f"""\
{TABLES[0].decode()}
{QUERY.decode()}
{TABLES[1].decode()}
INSERT INTO a VALUES (-1, TRUE);
INSERT INTO a VALUES (7, FALSE);
INSERT INTO b VALUES ('it''s', -1);
INSERT INTO b VALUES ('x
y', NULL);
"""


def run_dump(*words: pathlib.Path | str) -> subprocess.CompletedProcess[bytes]:
    return subprocess.run([sys.executable, "-B", TOP / "bin/dump", *words], capture_output=True)


def pairs_of(path: pathlib.Path) -> list[tuple[bytes, bytes]]:
    database = sqlite3.connect(path)
    try:
        return database.execute("SELECT k, v FROM kv ORDER BY k").fetchall()
    finally:
        database.close()


class NoFileTest(unittest.TestCase):
    def test_it_is_told(self) -> None:
        run = run_dump(new_folder(self) / "nowhere.db")
        self.assertEqual(run.returncode, 1)
        self.assertRegex(run.stderr, rb"^dump: /\S*nowhere\.db can't be read: unable to open")


class BytesTest(unittest.TestCase):
    def setUp(self) -> None:
        self.folder = new_folder(self)
        self.path = self.folder / "a.db"

    def write(self, pairs: dict[bytes, bytes]) -> None:
        database = sqlite3.connect(self.path)
        database.execute("CREATE TABLE kv(k BLOB PRIMARY KEY, v BLOB NOT NULL)")
        database.executemany("INSERT INTO kv VALUES (?, ?)", pairs.items())
        database.commit()
        database.close()

    def refused(self) -> str:
        run = run_dump(self.path)
        self.assertEqual((run.returncode, run.stdout), (1, b""))
        return run.stderr.decode()

    def test_a_file_is_a_script(self) -> None:
        self.write(PAIRS)
        run = run_dump(self.path)
        self.assertEqual((run.stdout.decode(), run.stderr, run.returncode), (SCRIPT, b"", 0))

    def test_a_folder_has_the_same_statements(self) -> None:
        self.write(PAIRS)
        self.assertEqual(run_dump(self.path, self.folder / "new").returncode, 0)
        self.assertEqual((self.folder / "new/000001.piql").read_text(), SCRIPT)
        self.assertEqual(run_dump(self.path, self.folder / "new").returncode, 2)

    def test_a_folder_is_its_owners(self) -> None:
        self.write(PAIRS)
        run_dump(self.path, self.folder / "new")
        found = [self.folder / "new", self.folder / "new/000001.piql"]
        self.assertEqual([stat.S_IMODE(it.stat().st_mode) for it in found], [0o700, 0o600])

    def test_scripts_are_no_longer_than_a_run_takes(self) -> None:
        lines = ["INSERT;", "INSERT INTO b;", "X;"]
        self.assertEqual(list(dump.scripts(lines, 16)), [b"INSERT;\n", b"INSERT INTO b;\n", b"X;\n"])
        self.assertEqual(list(dump.scripts(lines, 23)), [b"INSERT;\nINSERT INTO b;\n", b"X;\n"])
        self.assertEqual(list(dump.scripts([], 23)), [b""])

    def test_a_write_that_was_cut_off_is_told(self) -> None:
        self.write(PAIRS | {b"\x04": b"\x00\x00"})
        self.assertIn("a write of it was cut off", self.refused())

    def test_an_index_that_is_being_filled_is_told(self) -> None:
        self.write(PAIRS | {b"\x01\x00\x03": b"\x01\x01" + QUERY})
        self.assertIn("isn't filled to its end", self.refused())

    def test_a_later_version_is_told(self) -> None:
        self.write(PAIRS | {b"\x01\x00\x03": b"\x02\x00" + TABLES[1]})
        self.assertIn("definition 3 was written by a later version", self.refused())

    def test_added_columns_are_added_again(self) -> None:
        self.write(GROWN)
        definitions = b"".join(line + b"\n" for line in (TABLES[0], QUERY, TABLES[1], *ADDED)).decode()
        run = run_dump(self.path)
        self.assertEqual((run.stderr, run.returncode), (b"", 0))
        self.assertTrue(run.stdout.decode().startswith(definitions + GROWN_ROWS))

    def test_an_added_column_of_another_format_is_told(self) -> None:
        for number, wrong in ((4, b"\x01\x00" + ADDED[0]), (4, b"\x03\x00" + ADDED[0]), (3, b"\x02\x00" + TABLES[1])):
            self.path.unlink(missing_ok=True)
            self.write(GROWN | {bytes([1, 0, number]): wrong})
            self.assertIn(f"definition {number} was written by a later version", self.refused())

    def test_counters_are_made_again_before_the_rows(self) -> None:
        self.write(PAIRS | COUNTED)
        definitions = b"".join(line + b"\n" for line in (TABLES[0], QUERY, TABLES[1], COUNTER)).decode()
        run = run_dump(self.path)
        self.assertEqual((run.stderr, run.returncode), (b"", 0))
        self.assertTrue(run.stdout.decode().startswith(definitions + "INSERT INTO a VALUES (-1, TRUE);\n"))
        self.assertNotIn("\x05", run.stdout.decode())

    def test_a_counter_of_another_format_is_told(self) -> None:
        self.write(PAIRS | COUNTED | {b"\x01\x00\x04": READY + COUNTER})
        self.assertIn("definition 4 was written by a later version", self.refused())

    def test_a_row_of_another_shape_is_told(self) -> None:
        for code in (b"\x03" + b"\xff" * 8 + b"\x01", b"\x02" + b"\xff" * 8 + b"\x01\x00"):
            self.path.unlink(missing_ok=True)
            self.write(PAIRS | {b"\x02\x01\x10\x7f" + b"\xff" * 7: code})
            self.assertIn("a row", self.refused())

    def test_a_spoilt_file_is_told(self) -> None:
        strange = {
            b"\x01\x00\x01": READY + b"CREATE TABLE \xff",
            b"\x01\x00\x02": READY + b"CREATE TABLE ",
            b"\x02\x01\x10\x7f" + b"\xff" * 7: b"",
            b"\x02\x02\x10it's\x00\x01": b"\x02\x00\x04it\xffs" + b"\xff" * 8,
        }
        for key, value in strange.items():
            self.path.unlink(missing_ok=True)
            self.write(PAIRS | {key: value})
            with self.subTest(value):
                self.assertRegex(self.refused(), r"^dump: \S*a\.db: (a|column) ")

    def test_nothing_is_left_beside_the_file(self) -> None:
        self.write(PAIRS)
        with contextlib.closing(sqlite3.connect(self.path)) as database:
            database.execute("PRAGMA journal_mode = wal")
        run_dump(self.path)
        self.assertEqual([it.name for it in self.folder.glob("*-shm")], [])

    def test_no_store_is_told(self) -> None:
        self.assertIn("unable to open", self.refused())
        self.path.write_text("a text, and no store of pairs at all; longer than a page's head\n" * 20)
        self.assertIn("file is not a database", self.refused())


@unittest.skipUnless(PIQL_FILE, "crates/piql_file is not built")
class ExamplesTest(unittest.TestCase):
    """There and back over the engine."""

    def setUp(self) -> None:
        self.folder = new_folder(self)

    def run_script(self, path: pathlib.Path, script: bytes) -> bytes:
        assert PIQL_FILE is not None
        return subprocess.run([PIQL_FILE, path, "run"], input=script, capture_output=True).stdout

    def test_each_example_is_made_again(self) -> None:
        for example in EXAMPLES:
            with self.subTest(example.stem):
                old, new = self.folder / f"{example.stem}.db", self.folder / f"{example.stem}-new.db"
                self.run_script(old, example.read_bytes())
                self.run_script(new, run_dump(old).stdout)
                self.assertEqual(pairs_of(new), pairs_of(old))

    def test_a_cursor_of_the_old_file_is_read_over_the_new_one(self) -> None:
        old, new = self.folder / "old.db", self.folder / "new.db"
        written = self.run_script(old, (TOP / "examples/feed.piql").read_bytes())
        cursor = re.search(rb" next (\S+) ", written)
        assert cursor is not None
        self.run_script(new, run_dump(old).stdout)
        page = b"RUN feed ('ann', 10) AFTER '%s';" % cursor[1]
        over_old, over_new = self.run_script(old, page), self.run_script(new, page)
        self.assertEqual(over_new, over_old)
        # the script wrote the thought of 15 behind its pages
        rows = b"row 14, 'lima', 'cid', 'still no clouds'\nrow 15, 'oslo', 'bob', 'the sun'\n1 ok rows 2 "
        self.assertIn(rows, over_new)


if __name__ == "__main__":
    unittest.main()
