"""Tests of bin/tell: over a script with its report, and over what somebody writes who knows Postgres."""

import pathlib
import re
import sqlite3
import subprocess
import sys
import unittest

from tools.repository import TOP
from tools.tests.copies import Copy, built, new_folder
from tools.tests.postgres import STATEMENTS, TABLES

PIQL = built("piql")
SCRIPT = """\
-- A script whose lines are told.
CREATE TABLE t (a INT, b TEXT(60) NULL, c BOOL, PRIMARY KEY (a));
INSERT INTO t
  VALUES (7, 'x', 'y');
PREPARE q AS SELECT t.a, t.b, t.c FROM t ORDER BY t.a LIMIT 9;
PREPARE all AS SELECT * FROM t LIMIT 2; RUN q (); RUN all;
alter table T add column W int default 5; PREPARE more AS SELECT * FROM t LIMIT 2; RUN more;
INSERT INTO t VALUES (1, 'x', TRUE, 'y');
CREATE COUNTER C OF t (b); read c ('x');
SELECT t.A, b FROM t LIMIT 9; select * from T LIMIT 1;
UPDATE t SET c = TRUE WHERE a = 7 IF b = 'x' AND c IS NULL;
SELECT b FROM t
"""
REPORT = """\
open defs 0 bound 2 257 used 2 0
1 ok bound 1 0 used 1 0
2 refused E501 t c bound 2 1 used 0 0
query q stop 1 bound 1 9
3 ok bound 1 0 used 1 0
query all stop 1 bound 1 2
4 ok bound 1 0 used 1 0
row -7, 'two
lines', true
row 12, NULL, false
5 ok rows 2 bound 1 9 used 1 2
row 7, 'it''s so', true
6 ok rows 1 next AQAC bound 1 2 used 1 1
7 ok bound 1 0 used 1 0
query more stop 1 bound 1 2
8 ok bound 1 0 used 1 0
row 7, 'it''s so', true, 5
9 ok rows 1 bound 1 2 used 1 1
10 refused E501 t w bound 0 0 used 0 0
11 ok bound 2 1 used 2 0
row 3
12 ok rows 1 bound 1 1 used 1 1
row 7, 'x'
13 ok rows 1 bound 1 9 used 1 1
row 7, 'x', true, 5
14 ok rows 1 bound 1 1 used 1 1
15 refused E511 t 2 bound 2 1 used 1 1
16 refused E102 bound 0 0 used 0 0
"""
TOLD = """\
NAME:4: statement 2 is refused: E501 t c
     4 |   VALUES (7, 'x', 'y');
       |                   ^
  a value doesn't fit its column. It is of another kind, a text longer than the column, or NULL for
    a column that isn't nullable, as each column of a key. Or the column of an ADD is no INT.
    Lengths are in bytes of UTF-8, not in letters. c is BOOL, and takes no NULL.
  way out: cut or refuse it in the site. A column can't be made nullable later.

  query q: bound 1 9 (stop 1)
  query all: bound 1 2 (stop 1)
NAME:6: RUN q ();
  t.a | t.b        | t.c
  ----+------------+------
   -7 | two\\nlines | true
   12 | NULL       | false
  2 rows; bound 1 9, used 1 2

NAME:6: RUN all;
  a | b       | c
  --+---------+-----
  7 | it's so | true
  1 row, the next page is behind 'AQAC'; bound 1 2, used 1 1

  query more: bound 1 2 (stop 1)
NAME:7: RUN more;
  a | b       | c    | w
  --+---------+------+--
  7 | it's so | true | 5
  1 row; bound 1 2, used 1 1

NAME:8: statement 10 is refused: E501 t w
     8 | INSERT INTO t VALUES (1, 'x', TRUE, 'y');
       |                                     ^
  a value doesn't fit its column. It is of another kind, a text longer than the column, or NULL for
    a column that isn't nullable, as each column of a key. Or the column of an ADD is no INT.
    Lengths are in bytes of UTF-8, not in letters. w is INT, and takes no NULL.
  way out: cut or refuse it in the site. A column can't be made nullable later.

NAME:9: read c ('x');
  rows
  ----
     3
  1 row; bound 1 1, used 1 1

NAME:10: SELECT t.A, b FROM t LIMIT 9;
  t.a | b
  ----+--
    7 | x
  1 row; bound 1 9, used 1 1

NAME:10: select * from T LIMIT 1;
  a | b | c    | w
  --+---+------+--
  7 | x | true | 5
  1 row; bound 1 1, used 1 1

NAME:11: statement 15 is refused: E511 t 2
    11 | UPDATE t SET c = TRUE WHERE a = 7 IF b = 'x' AND c IS NULL;
       |                                                  ^
  the row is another than was read. The row with this key is there, and condition 2 of the write,
    counted from 1, doesn't hold of it. Nothing was made. Condition 2 doesn't hold of it: c IS NULL.
  way out: read the row again, and write what is right now, on the condition that it is still so; or
    tell the user that it was changed meanwhile. IS NULL is the condition for a value that isn't
    there, as no comparison holds at NULL.

NAME:12: statement 16 is refused: E102
    12 | SELECT b FROM t
       |                ^
  the script ends within a statement. There is something after the last ;. Mostly the ; is missing,
    or a text isn't closed and goes on to the end.
  way out: end it.

16 statements, 4 refused
"""
UNBOUNDED = "1 refused E304 x bound 0 0 used 0 0"
HEAD = re.compile(
    r"^\S+:(\d+): statement \d+ is refused: (E\d\d\d)[^\n]*\n *\d+ \| ([^\n]*)\n {7}\| ( *)\^\n", re.MULTILINE
)


def run_tell(*words: pathlib.Path | str) -> subprocess.CompletedProcess[str]:
    return subprocess.run([sys.executable, "-B", TOP / "bin/tell", *words], capture_output=True, text=True)


class ReportTest(unittest.TestCase):
    """Over a report that was written before."""

    def setUp(self) -> None:
        folder = new_folder(self)
        self.script, self.report = folder / "a.piql", folder / "a.out"
        self.script.write_text(SCRIPT)
        self.report.write_text(REPORT)

    def test_refusals_and_answers_are_told(self) -> None:
        run = run_tell("--report", self.report, self.script)
        self.assertEqual(run.stdout, TOLD.replace("NAME", str(self.script)))
        self.assertEqual((run.returncode, run.stderr), (1, ""))

    def test_the_write_of_a_batch_is_told(self) -> None:
        self.script.write_text("BATCH DELETE FROM t WHERE a = 1, INSERT INTO t VALUES (1, 'x');\n")
        self.report.write_text("1 refused E513 2 E502 t bound 0 0 used 0 0\n")
        told = run_tell("--report", self.report, self.script).stdout.splitlines()
        self.assertEqual(told[0], f"{self.script}:1: statement 1 is refused: E513 2 E502 t")
        self.assertEqual(told[2].index("^"), told[1].rindex("t VALUES"))
        self.assertTrue(told[3].startswith("  write 2 of the batch: the wrong columns."))
        self.assertIn("way out: each column of the table with a value", told[4])

    def test_damage_is_told(self) -> None:
        self.report.write_text("damaged 0102ff\n")
        run = run_tell("--report", self.report, self.script)
        self.assertEqual(run.stdout, "  the store is damaged at the key 0102ff\n0 statements, 0 refused\n")

    def test_no_script_is_told(self) -> None:
        run = run_tell("nowhere.piql")
        self.assertEqual((run.returncode, run.stderr), (2, "tell: there is no script nowhere.piql\n"))


class FileTest(unittest.TestCase):
    """Over a file, whose definitions are known before the script is run."""

    def test_why_a_query_of_its_tables_has_no_bound(self) -> None:
        copy = Copy(self)
        copy.put_script("piql_file", f"cat > /dev/null; echo '{UNBOUNDED}'; exit 1\n")
        (copy.top / "a.piql").write_text("EXPLAIN SELECT x.a FROM t AS x WHERE x.b = 1;")
        for text, why in (
            (b"CREATE TABLE t (a INT, b INT, PRIMARY KEY (a));", "its equalities fix b, its key is (a), and it has no"),
            (b"CREATE TABLE t (", "x is the first relation without a bound of its own"),
        ):
            file = sqlite3.connect(copy.top / "a.db")
            file.execute("CREATE TABLE IF NOT EXISTS kv(k BLOB PRIMARY KEY, v BLOB NOT NULL)")
            file.execute("INSERT OR REPLACE INTO kv VALUES (?, ?)", (b"\1\0\1", b"\1\0" + text))
            file.commit()
            file.close()
            told = copy.run("tell", "--file", "a.db", "a.piql").stdout.decode()
            self.assertIn(why, " ".join(told.split()))


@unittest.skipUnless(PIQL, "crates/piql is not built")
class PostgresTest(unittest.TestCase):
    """Over a run of the engine."""

    def setUp(self) -> None:
        copy = Copy(self)
        assert PIQL is not None
        copy.put_program("piql", PIQL)
        copy.put_documents()
        self.script = copy.top / "postgres.piql"
        self.script.write_text(TABLES + "".join(f"{statement};\n" for statement, *_ in STATEMENTS), encoding="utf-8")
        self.told = copy.run("tell", "postgres.piql").stdout.decode()

    def test_each_refusal_is_found(self) -> None:
        heads = list(HEAD.finditer(self.told))
        self.assertEqual(len(heads), len(STATEMENTS))
        text = self.script.read_text(encoding="utf-8")
        ends = [*(head.start() for head in heads[1:]), len(self.told)]
        line = TABLES.count("\n") + 1
        for head, end, (statement, code, token, way) in zip(heads, ends, STATEMENTS):
            with self.subTest(statement):
                number, told_code, source, blanks = head.groups()
                at_caret = source[len(blanks) :]
                self.assertEqual(told_code, code)
                self.assertIn(int(number), range(line, line + statement.count("\n") + 1))
                self.assertIn(source, text.split("\n")[int(number) - 1].replace("\u00a0", "\ufffd"))
                self.assertTrue(at_caret.startswith(token.replace("\u00a0", "\ufffd")), at_caret)
                self.assertIn(way, " ".join(self.told[head.end() : end].partition("way out: ")[2].split()))
            line += statement.count("\n") + 1
        count = len(STATEMENTS) + TABLES.count(";")
        self.assertTrue(self.told.endswith(f"\n{count} statements, {len(STATEMENTS)} refused\n"))


if __name__ == "__main__":
    unittest.main()
