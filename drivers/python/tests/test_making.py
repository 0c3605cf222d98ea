"""Files that are made of scripts."""

import io
import os
import sqlite3
import subprocess
import sys
import unittest
from unittest import mock

from helpers import TOP, built, needs_file, new_folder, piql
from piql import making
from piql.hosts.host import Host
from piql.making import Made, make

DEFINED = "CREATE TABLE t (a INT, b TEXT(60), PRIMARY KEY (a));\nPREPARE q AS SELECT t.a FROM t AS t WHERE t.b = [1]"
FIRST = DEFINED + " ORDER BY t.a LIMIT 5;\nINSERT INTO t VALUES (1, '1 refused E503 t bound 2 1 used 1 1');\n"
SECOND = "INSERT INTO t VALUES (1, 'secretcell');\nINSERT INTO t VALUES (2, 'two\nlines');\n"


@needs_file
@unittest.skipUnless(built("piql_host"), "crates/piql_host is not built")
class MakingTest(unittest.TestCase):
    """Each test has a folder of its own."""

    def setUp(self) -> None:
        self.folder = new_folder(self)
        self.new = str(self.folder / "new.db")
        self.scripts = [str(self.folder / name) for name in ("1.piql", "2.piql")]
        for path, text in zip(self.scripts, (FIRST, SECOND)):
            with open(path, "w") as script:
                script.write(text)

    def test_scripts_make_a_file(self) -> None:
        tell = io.StringIO()
        self.assertEqual(make(self.new, self.scripts, tell), Made(5, 1))
        told = [f"{self.scripts[1]}, statement 1: E503 t", "5 statements, 1 refused"]
        self.assertEqual(tell.getvalue().splitlines(), told)
        with piql.connect(self.new) as connection:
            self.assertEqual(connection.execute("RUN q (?)", ("two\nlines",)).fetchall(), [(2,)])
        self.assertEqual(os.stat(self.new).st_mode & 0o777, 0o600)
        self.assertEqual(sorted(os.listdir(self.folder))[:3], ["1.piql", "2.piql", "new.db"])

    def test_a_dump_comes_back_byte_for_byte(self) -> None:
        make(self.new, self.scripts, io.StringIO())
        again, dumped = str(self.folder / "again.db"), self.folder / "dumped"
        subprocess.run([sys.executable, TOP / "bin/dump", self.new, dumped], check=True)
        words = [sys.executable, "-m", "piql", "make", again, *sorted(map(str, dumped.glob("*")))]
        environment = {**os.environ, "PYTHONPATH": str(TOP / "drivers/python")}
        done = subprocess.run(words, env=environment, capture_output=True)
        self.assertEqual((done.returncode, done.stderr), (0, b"4 statements, 0 refused\n"))
        found = []
        for path in (self.new, again):
            file = sqlite3.connect(path)
            found.append(file.execute("SELECT k, v FROM kv ORDER BY k").fetchall())
            file.close()
        self.assertEqual(found[1], found[0])

    def test_what_ends_leaves_no_file(self) -> None:
        too_long = mock.patch.object(making, "run_script", return_value=(8, Host([])))
        with too_long, self.assertRaisesRegex(piql.OperationalError, "16,777,216"):
            make(self.new, self.scripts, io.StringIO())
        with self.assertRaisesRegex(piql.OperationalError, "No such file"):
            make(self.new, [self.scripts[0] + "x"], io.StringIO())
        self.assertEqual(sorted(os.listdir(self.folder)), ["1.piql", "2.piql"])

    def test_a_name_that_is_taken_is_refused(self) -> None:
        os.symlink(self.scripts[0], self.new)
        with self.assertRaisesRegex(piql.OperationalError, "is there already"):
            make(self.new, self.scripts, io.StringIO())
        with open(self.scripts[0]) as script:
            self.assertEqual(script.read(), FIRST)
