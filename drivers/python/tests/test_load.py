"""Loading a CSV file: which records are taken, what is told of the others, and how a load goes on."""

import io
import os
import re
import subprocess
import sys
import time
import unittest
from pathlib import Path

from helpers import TOP, needs_file, new_folder, piql
from piql.cells import RowReader, Unreadable, reader_of
from piql.load import Loaded, load, records_of
from piql.marks import Mark, mark_path
from piql.schema import Column, Table
from piql.writes import WRITES

FIRST = "CREATE TABLE users (name TEXT(20), town TEXT(30) NULL, PRIMARY KEY (name));"
TOWN = "PREPARE town AS SELECT u.town FROM users AS u WHERE u.name = [1: who];"
ADDED = "ALTER TABLE users ADD COLUMN karma INT DEFAULT 7;"
COUNTED = "CREATE COUNTER of_town OF users (town);"
ROWS = 'name,town\nann,rome\n"b,o""b",\n"two\nlines",oslo\nann,lima\n' + "x" * 21 + ",lima\ncid,lima,7\n"
REFUSED_LINES = [
    "record 4, line 6: E503 users",
    "record 5, line 7: E501 users name",
    "record 6, line 8: 3 cells, and not 2",
]
NUMBERS = {
    "0": 0,
    "-0": 0,
    "007": 7,
    "9223372036854775807": 2**63 - 1,
    "-9223372036854775808": -(2**63),
    "0" * 6000 + "1": 1,
}
NO_NUMBERS = ["", "-", "+7", " 7", "7 ", "1_000", "7.0", "1e3", "0x7", "\u0667", "\uff17", "--7", "7\n"]
LARGE_NUMBERS = ["9223372036854775808", "-9223372036854775809", "1" * 6000, "-" + "9" * 20]
ENVIRONMENT = {**os.environ, "PYTHONPATH": str(TOP / "drivers/python")}
# In none of what is told: a word that stands in cells alone.
MARKED = "secretcell"
SECRETS = "postgresql://site:hunter2@a,b/site?sslpassword=hunter2&lease=5"


def kept(mark: Path) -> str:
    """What a mark has; nothing where there is none yet, or none any more."""
    try:
        return mark.read_text()
    except FileNotFoundError:
        return ""


class CellTest(unittest.TestCase):
    """Cells as an INSERT writes the values of their columns."""

    def test_numbers(self) -> None:
        read = reader_of(Column("n", "INT", None, False), "")
        for cell, wanted in NUMBERS.items():
            self.assertEqual(read(cell), str(wanted), cell[:30])
        for cell in NO_NUMBERS:
            with self.subTest(cell), self.assertRaisesRegex(Unreadable, "^no decimal number$"):
                read(cell)
        for cell in LARGE_NUMBERS:
            with self.subTest(cell[:30]), self.assertRaisesRegex(Unreadable, "^a number of more than 64 bits$"):
                read(cell)

    def test_columns_of_numbers(self) -> None:
        table = Table("t", (Column("id", "INT", None, False), Column("n", "INT", None, True)), ("id",), "")
        reader = RowReader(table, ["id", "n"], "7")
        for cells in ({"1": 1, "9" * 18: 10**18 - 1}, NUMBERS, {"5": 5, "07": 7}, {"1" * 19: int("1" * 19), "8": 8}):
            rows = reader.rows([[cell, cell] for cell in cells])
            self.assertEqual(rows, [f"{number}, {number}" for number in cells.values()])
        self.assertEqual(reader.rows([["7", "6"], ["8", "7"]]), ["7, 6", "8, NULL"])
        for cell in NO_NUMBERS + LARGE_NUMBERS:
            for records in ([["1", "1"], [cell, "1"]], [[cell, "1"], ["1", "1"]], [["1", "1"], ["2", cell]]):
                with self.subTest(cell[:30]), self.assertRaisesRegex(Unreadable, "^column (id|n): "):
                    reader.rows(records)

    def test_other_cells(self) -> None:
        truth, text = reader_of(Column("b", "BOOL", None, True), "-"), reader_of(Column("t", "TEXT", 9, False), "-")
        self.assertEqual([truth(cell) for cell in ("TRUE", "f", "1", "-")], ["TRUE", "FALSE", "TRUE", "NULL"])
        self.assertEqual([text(cell) for cell in ("-", "", "it's", "1, 2")], ["'-'", "''", "'it''s'", "'1, 2'"])
        for read, cell in ((truth, ""), (truth, MARKED), (text, f"{MARKED}\udcff")):
            with self.subTest(cell), self.assertRaises(Unreadable) as caught:
                read(cell)
            self.assertNotIn(MARKED, str(caught.exception))

    def test_rows(self) -> None:
        columns = (
            Column("id", "INT", None, False),
            Column("a", "TEXT", 20, True),
            Column("b", "BOOL", None, True),
            Column("c", "TEXT", 9, False, True, "it's"),
        )
        reader = RowReader(Table("t", columns, ("id",), ""), [" B ", "ID"], "-")
        self.assertEqual(reader.rows([["t", "07"], ["-", "-8"]]), ["7, NULL, TRUE, 'it''s'", "-8, NULL, NULL, 'it''s'"])
        for cells, why in ((["t"], "1 cells, and not 2"), (["x", "y"], "column b: "), (["t", ""], "column id: ")):
            with self.subTest(why), self.assertRaisesRegex(Unreadable, f"^{why}"):
                reader.rows([["t", "7"], cells, ["t", "8"]])

    def test_a_text_that_is_no_csv_is_told_with_its_line(self) -> None:
        found = records_of(io.StringIO('a,b\n"1\n",2\n"3"4,5\n', newline=""))
        self.assertEqual([next(found), next(found)], [(0, 1, ["a", "b"]), (1, 2, ["1\n", "2"])])
        with self.assertRaisesRegex(piql.OperationalError, "^record 2, line 4: no CSV: "):
            next(found)
        found = records_of(io.TextIOWrapper(io.BytesIO(b"a\nb\xff\n"), encoding="utf-8", newline=""))
        with self.assertRaisesRegex(piql.OperationalError, "no UTF-8"):
            list(found)


class MarkTest(unittest.TestCase):
    """The file that keeps how far a load came."""

    def setUp(self) -> None:
        self.path = new_folder(self) / "mark"

    def test_its_name_has_no_part_of_a_url(self) -> None:
        path = mark_path(SECRETS, "users")
        self.assertRegex(path, r"^users\.[0-9a-f]{16}\.load$")
        same = SECRETS.replace("hunter2", "another").replace("lease=5", "patience=7")
        for url in (same, SECRETS.replace(":hunter2@", "@"), "postgresql://site@a,b/site"):
            self.assertEqual(mark_path(url, "users"), path)
        for url in (SECRETS.replace("a,b", "a"), SECRETS.replace("site:", "root:"), SECRETS + "&dbname=x"):
            self.assertNotEqual(mark_path(url, "users"), path, url)
        self.assertEqual(mark_path("unix:/run/s", "users"), "/run/s.users.load")
        self.assertEqual(mark_path("site.db", "users"), "site.db.users.load")

    def test_it_goes_on(self) -> None:
        mark = Mark(self.path)
        self.assertFalse(mark.is_resumed)
        mark.begin()
        mark.take(1, 0, 5)
        mark.take(2, 1, 6)
        mark.send(256)
        mark.close(False)
        again = Mark(self.path)
        found = (again.is_resumed, again.records, again.refused, again.sum, again.sent)
        self.assertEqual(found, (True, 3, 1, 6, 256))
        again.begin()
        again.close(True)
        self.assertFalse(self.path.exists())

    def test_one_of_before_has_sent_one_row(self) -> None:
        self.path.write_text(f"{7:020} {2:020} {5:010}\n")
        self.assertEqual(Mark(self.path).sent, 1)

    def test_one_of_a_load_that_was_killed_before_its_first_record_is_empty(self) -> None:
        self.path.write_text("")
        mark = Mark(self.path)
        self.assertEqual((mark.is_resumed, mark.records), (True, 0))

    def test_what_is_none_is_refused_and_kept(self) -> None:
        for text in ("7 0 0\n", "a note of the user's", "\u0667" * 20 + " " + "0" * 20 + " " + "0" * 10 + "\n"):
            self.path.write_text(text)
            with self.subTest(text), self.assertRaisesRegex(piql.OperationalError, "is no mark of a load"):
                Mark(self.path)
            self.assertEqual(self.path.read_text(), text)

    def test_a_link_is_not_followed(self) -> None:
        victim = self.path.with_name("victim")
        self.path.symlink_to(victim)
        self.assertRaises(piql.OperationalError, Mark, self.path)
        self.path.unlink()
        mark = Mark(self.path)
        self.path.symlink_to(victim)
        self.assertRaises(piql.OperationalError, mark.begin)
        self.assertFalse(victim.exists())


@needs_file
class LoadTest(unittest.TestCase):
    """Each test has a file of its own."""

    def setUp(self) -> None:
        self.folder = new_folder(self)
        self.path = self.folder / "store.db"
        self.words = [sys.executable, "-m", "piql", "load", str(self.path), "users"]

    def open(self, *definitions: str) -> piql.Connection:
        """A connection, over a store with these definitions where it has none."""
        connection = piql.connect(self.path)
        self.addCleanup(connection.close)
        for definition in definitions:
            connection.execute(definition)
        return connection

    def migrated(self, *definitions: str) -> tuple[piql.Connection, io.StringIO, Path]:
        """A connection over definitions, a place for what a load tells, and that of its mark."""
        return self.open(*definitions), io.StringIO(), self.folder / "mark"

    def loaded(self, rows: bytes) -> subprocess.CompletedProcess[bytes]:
        """What the command does with a CSV file."""
        return subprocess.run(self.words, input=rows, env=ENVIRONMENT, capture_output=True)

    def test_load(self) -> None:
        connection, tell, mark = self.migrated(FIRST, TOWN)
        self.assertEqual(load(connection, "users", io.StringIO(ROWS, newline=""), mark, tell), Loaded(6, 3))
        lines = tell.getvalue().splitlines()
        told = [line for line in lines if line.startswith("record ")]
        self.assertEqual(len(told), len(REFUSED_LINES))
        for line, wanted in zip(told, REFUSED_LINES):
            self.assertTrue(line.startswith(wanted), line)
        self.assertEqual(lines[-1], "6 records, 3 refused")
        self.assertEqual(connection.execute("RUN town ('b,o\"b')").fetchall(), [(None,)])
        self.assertEqual(connection.execute("RUN town ('two\nlines')").fetchall(), [("oslo",)])
        self.assertFalse(mark.exists())

    def test_load_leaves_out_an_added_column(self) -> None:
        connection, tell, mark = self.migrated(FIRST, ADDED)
        rows = "name,town\nann,rome\n"
        self.assertEqual(load(connection, "users", io.StringIO(rows), mark, tell), Loaded(1, 0))
        rows = "karma,name\n9,bob\n"
        self.assertEqual(load(connection, "users", io.StringIO(rows), mark, tell), Loaded(1, 0))
        found = connection.execute("SELECT * FROM users ORDER BY name LIMIT 9").fetchall()
        self.assertEqual(found, [("ann", "rome", 7), ("bob", None, 9)])

    def test_load_counts(self) -> None:
        connection, tell, mark = self.migrated(FIRST, COUNTED)
        rows = "name,town\nann,rome\nbob,rome\nann,rome\ncid,\ndan,oslo\n"
        self.assertEqual(load(connection, "users", io.StringIO(rows), mark, tell), Loaded(5, 1))
        found = [connection.execute("READ of_town (?)", (town,)).fetchall() for town in ("rome", "oslo", "")]
        self.assertEqual(found, [[(2,)], [(1,)], [(0,)]])

    def test_load_goes_on_where_it_stopped(self) -> None:
        connection, tell, mark = self.migrated(FIRST, TOWN)
        text = "name,town\n" + "".join(f"n{i},x\n" for i in range(40))
        for cut in (11, 25):
            broken = "\n".join(text.split("\n")[: cut + 1]) + '\n"'
            with self.assertRaises(piql.OperationalError):
                load(connection, "users", io.StringIO(broken), mark, tell)
            self.assertEqual(int(mark.read_text().split()[0]), cut)
        with self.assertRaises(piql.ProgrammingError):
            load(connection, "users", io.StringIO(text.replace("n3,", "m3,")), mark, tell)
        self.assertEqual(load(connection, "users", io.StringIO(text), mark, tell), Loaded(40, 0))
        self.assertEqual(len(connection.execute("SELECT name FROM users ORDER BY name LIMIT 100").fetchall()), 40)

    def test_a_text_shorter_than_its_mark_is_refused(self) -> None:
        """By the records that were taken, or by the rows that were sent behind them. Nothing is lost by it."""
        connection, tell, mark = self.migrated(FIRST)
        lines = ["name,town", *(f"n{i},x" for i in range(9))]
        with self.assertRaises(piql.OperationalError):
            load(connection, "users", io.StringIO("\n".join([*lines[:8], '"'])), mark, tell)
        for sent, there in (("000", 0), ("000", 6), ("001", 7), ("002", 8)):
            mark.write_text(re.sub(" \\d+\n$", f" {sent}\n", mark.read_text()))
            kept = mark.read_text()
            told = f"counts {7 + int(sent)} records, and the text has {there}; "
            with self.subTest(told), self.assertRaisesRegex(piql.OtherRecords, told):
                load(connection, "users", io.StringIO("\n".join(lines[: there + 1])), mark, tell)
            self.assertEqual(mark.read_text(), kept)
        self.assertEqual(load(connection, "users", io.StringIO("\n".join(lines)), mark, tell), Loaded(9, 0))
        self.assertEqual(len(connection.execute("SELECT name FROM users ORDER BY name LIMIT 100").fetchall()), 9)

    def test_the_command_does_not_go_on_over_a_shorter_text(self) -> None:
        self.open(FIRST).close()
        mark = Path(f"{self.path}.users.load")
        mark.write_text(f"{7:020} {0:020} {0:010} 000\n")
        done = self.loaded(b"name\nann\n")
        told = done.stderr.decode().splitlines()
        self.assertEqual((done.returncode, len(told)), (2, 1))
        self.assertIn("counts 7 records, and the text has 1;", told[0])
        self.assertTrue(mark.exists())

    def test_rows_that_were_sent_before_a_stop(self) -> None:
        """They are all there, and so made; or one isn't, and so none was made by that load."""
        text = "name,town\n" + "".join(f"n{i},x\n" for i in range(9))
        for there, refused in ((range(3, 7), 0), (range(3, 4), 1), (range(4, 7), 3), ((), 0)):
            with self.subTest(there), io.StringIO() as tell, piql.connect(self.folder / f"{len(there)}.db") as connection:
                connection.execute(FIRST)
                mark = self.folder / "mark"
                head = "\n".join(text.split("\n")[:4]) + '\n"'
                with self.assertRaises(piql.OperationalError):
                    load(connection, "users", io.StringIO(head), mark, tell)
                mark.write_text(mark.read_text().replace(" 000\n", " 004\n"))
                for i in there:
                    connection.execute("INSERT INTO users VALUES (?, 'x')", (f"n{i}",))
                self.assertEqual(load(connection, "users", io.StringIO(text), mark, tell), Loaded(9, refused))
                found = connection.execute("SELECT name FROM users ORDER BY name LIMIT 100").fetchall()
                self.assertEqual(len(found), 9)

    def test_many_refused(self) -> None:
        connection, tell, mark = self.migrated(FIRST, TOWN)
        rows = [f"n{i % 300},x\n" if i % 7 else f"m{i},{'y' * 31}\n" for i in range(700)]
        made: set[str] = set()
        refused = []
        for number, row in enumerate(rows, 1):
            name, town = row.strip().split(",")
            if name in made or len(town) > 30:
                refused.append(number)
            else:
                made.add(name)
        text = "name,town\n" + "".join(rows)
        self.assertEqual(load(connection, "users", io.StringIO(text), mark, tell), Loaded(700, len(refused)))
        lines = [line for line in tell.getvalue().splitlines() if line.startswith("record ")]
        told = [int(line.split(",")[0].removeprefix("record ")) for line in lines]
        self.assertEqual(told, refused)
        self.assertEqual(len(connection.execute("SELECT name FROM users ORDER BY name LIMIT 1000").fetchall()), len(made))

    def test_load_of_wrong_columns(self) -> None:
        connection, tell, mark = self.migrated(FIRST)
        for head in ("", "town\n", "name,name\n", "name,other\n", f"{MARKED},rome\n"):
            with self.subTest(head), self.assertRaises(piql.ProgrammingError) as caught:
                load(connection, "users", io.StringIO(head), mark, tell)
            self.assertNotIn(MARKED, str(caught.exception))
            self.assertFalse(mark.exists())

    def test_a_killed_load(self) -> None:
        """It has made one batch, and waits for more records, when it is killed."""
        self.open(FIRST).close()
        rows = b"name,town\n" + b"".join(b"n%d,x\n" % i for i in range(300))
        mark, quiet = Path(f"{self.path}.users.load"), subprocess.DEVNULL
        with subprocess.Popen(self.words, stdin=subprocess.PIPE, stderr=quiet, env=ENVIRONMENT) as first:
            assert first.stdin is not None
            first.stdin.write(rows)
            first.stdin.flush()
            while first.poll() is None and kept(mark)[:20] < f"{WRITES:020}":
                time.sleep(0.01)
            first.kill()
        self.assertEqual(kept(mark)[:20], f"{WRITES:020}")
        second = self.loaded(rows)
        self.assertEqual((second.returncode, second.stderr.splitlines()[-1]), (0, b"300 records, 0 refused"))

    def test_what_can_not_be_read_is_refused_alone(self) -> None:
        self.open("CREATE TABLE users (name TEXT(20), n INT, ok BOOL, PRIMARY KEY (name));").close()
        cells = MARKED.encode()
        rows = [b"ann,9999999999999999999,true", b"b%s\xff,1,true" % cells, b"cid,%s,true" % cells, b"dan,1_0,true"]
        rows += [b"eve,1,%s" % cells, b"fay,1", b"gus,-5,F", b"hal,\xd9\xa7,true", b"gus,%d,true" % 7]
        done = self.loaded(b"\n".join([b"name,n,ok", *rows, b""]))
        told = done.stderr.decode().splitlines()
        found = [re.match(r"record (\d+), line (\d+): (?:column )?(\w+)", line) for line in told[:-1]]
        places = [(int(it[1]), int(it[2]), it[3]) for it in found if it]
        names = ["n", "name", "n", "n", "ok", "2", None, "n", "E503"]
        wanted = [(number, number + 1, name) for number, name in enumerate(names, 1) if name]
        self.assertEqual((places, told[-1], done.returncode), (wanted, "9 records, 8 refused", 1))
        self.assertNotIn(MARKED, done.stderr.decode())
        rows_there = self.open().execute("SELECT * FROM users ORDER BY name LIMIT 9").fetchall()
        self.assertEqual(rows_there, [("gus", -5, False)])

    def test_a_load_that_was_killed_behind_its_first_row(self) -> None:
        connection, tell, mark = self.migrated(FIRST)
        connection.execute("INSERT INTO users VALUES ('ann', 'rome')")
        mark.write_text("")
        rows = io.StringIO("name,town\nann,rome\nbob,oslo\n")
        self.assertEqual(load(connection, "users", rows, mark, tell), Loaded(2, 0))

    def test_a_mark_that_is_none_ends_the_command(self) -> None:
        self.open(FIRST).close()
        Path(f"{self.path}.users.load").write_text("mine")
        done = self.loaded(b"name\nann\n")
        self.assertEqual(done.returncode, 2)
        self.assertIn(b"is no mark of a load", done.stderr)
