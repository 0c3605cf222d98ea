"""Rebuilt stores: which rows they have, what is told, who may have the file meanwhile, and where a kill leaves it."""

import io
import os
import sqlite3
import subprocess
import sys
import unittest
from pathlib import Path
from typing import Any
from unittest import mock

from helpers import TOP, needs_file, new_folder, piql
from killing import each_kill, fold, make_store, pairs_of
from piql import rebuild as rebuilding
from piql.filling import UnsyncedStore
from piql.hosts.backend import Guard
from piql.rebuild import Rebuilt, rebuild

FIRST = """CREATE TABLE users (name TEXT(20), town TEXT(30) NULL, PRIMARY KEY (name));
PREPARE town AS SELECT u.town FROM users AS u WHERE u.name = [1: who];
"""
ADDED = "ALTER TABLE users ADD COLUMN karma INT DEFAULT 7;\n"
COUNTED = "CREATE COUNTER of_town OF users (town);\n"
OLD, LOGGED, NEW = {b"old": b"1"}, {b"logged": b"2"}, {b"new": b"3"}


class UnsyncedStoreTest(unittest.TestCase):
    """The host of a file that is being filled."""

    def test_it_waits_for_no_disk(self) -> None:
        store = UnsyncedStore(str(new_folder(self) / "new.db"))
        self.addCleanup(store.close)
        store.begin()
        self.assertTrue(store.write(b"a", Guard.ABSENT, b"", b"1"))
        store.begin()
        self.assertEqual(store.get(b"a"), b"1")
        found = [store.run(f"PRAGMA {name}").fetchone()[0] for name in ("synchronous", "journal_mode")]
        self.assertEqual(found, [0, "off"])


class ReplacingTest(unittest.TestCase):
    """The names of a rebuilt file, over files that were written by hand, without an engine."""

    def setUp(self) -> None:
        self.folder = new_folder(self)
        self.path = self.folder / "d/store.db"
        self.path.parent.mkdir()
        for name, stub in (("FileLink", self.settle), ("make", self.make)):
            patched = mock.patch.object(rebuilding, name, stub)
            patched.start()
            self.addCleanup(patched.stop)

    def settle(self, path: str, *_: object) -> io.StringIO:
        """In place of an engine that opens the file and ends."""
        fold(path, "")
        return io.StringIO()

    def make(self, old: str, part: str, *_: object) -> Rebuilt:
        """In place of the rows' way."""
        make_store(Path(part), NEW, {})
        return Rebuilt(1, 0)

    def make_old(self) -> None:
        """The old file with a log, alone in its folder."""
        for it in self.path.parent.glob("*"):
            subprocess.run(["rm", "-r", it], check=True)
        make_store(self.path, OLD, LOGGED)

    def work(self) -> None:
        rebuild(str(self.path), None, "no schema", io.StringIO(), {})

    def test_killed_at_each_step(self) -> None:
        self.make_old()
        steps = 0
        for steps in each_kill(self.work):
            there = pairs_of(self.path, self.folder)
            names = [it for it in self.path.parent.glob("store.db.until-*") if not it.name.endswith("-wal")]
            with self.subTest(steps):
                self.assertIn(there, (OLD | LOGGED, NEW))
                self.assertIn(OLD | LOGGED, [there, *(pairs_of(it, self.folder) for it in names)])
                self.assertFalse(there == NEW and os.path.exists(f"{self.path}-wal"))
            self.make_old()
        self.assertGreater(steps, 10)

    def test_a_write_between_the_opening_and_the_lock_is_seen(self) -> None:
        self.make_old()
        with mock.patch.object(rebuilding, "FileLink"), mock.patch.object(rebuilding, "make", self.read_held):
            with self.assertRaisesRegex(piql.OperationalError, "somebody wrote to .* just now"):
                self.work()
        self.assertEqual(pairs_of(self.path, self.folder), OLD | LOGGED)

    def read_held(self, old: str, *_: object) -> Any:
        with rebuilding.opened_held(old):
            pass


class Trying(io.StringIO):
    """What is told; meanwhile somebody tries to write to the file."""

    def __init__(self, path: Path) -> None:
        super().__init__()
        self.path, self.found = path, set[str]()

    def write(self, text: str) -> int:
        file = sqlite3.connect(self.path, timeout=0, isolation_level=None)
        try:
            file.execute("BEGIN IMMEDIATE")
            self.found.add("open")
        except sqlite3.OperationalError as error:
            self.found.add(str(error))
        file.close()
        return super().write(text)


@needs_file
class RebuildTest(unittest.TestCase):
    """Each test has a file and a schema of its own."""

    def setUp(self) -> None:
        self.folder = new_folder(self)
        self.path, self.schema = self.folder / "store.db", self.folder / "schema.piql"
        self.schema.write_text(FIRST)

    def open(self, path: Path | None = None) -> piql.Connection:
        connection = piql.connect(path or self.path)
        self.addCleanup(connection.close)
        return connection

    def rows_of_old(self) -> None:
        """An old store with some rows."""
        with self.open() as connection:
            piql.migrate(connection, self.schema, out=io.StringIO())
            rows = [("ann", "rome"), ("bob", None), ("c" * 20, "it's")]
            connection.cursor().executemany("INSERT INTO users VALUES (?, ?)", rows)

    def test_rebuild(self) -> None:
        self.rows_of_old()
        columns = "town TEXT(30) NULL, name TEXT(19), age INT, note TEXT(5) NULL"
        self.schema.write_text(f"CREATE TABLE users ({columns}, PRIMARY KEY (name));")
        new, tell = self.folder / "new.db", io.StringIO()
        with self.assertRaises(piql.ProgrammingError):
            rebuild(str(self.path), str(new), self.schema, tell, {})
        self.assertFalse(new.exists())
        done = rebuild(str(self.path), str(new), self.schema, tell, {("users", "age"): 30})
        self.assertEqual(done, Rebuilt(2, 1))
        self.assertIn("E501 users name", tell.getvalue())
        rows = self.open(new).execute("SELECT * FROM users ORDER BY name LIMIT 9").fetchall()
        self.assertEqual(rows, [("rome", "ann", 30, None), (None, "bob", 30, None)])
        with self.assertRaises(piql.OperationalError):
            rebuild(str(self.path), str(new), self.schema, tell, {})

    def test_rebuild_with_added_columns(self) -> None:
        self.rows_of_old()
        with self.open() as connection:
            connection.execute(ADDED)
            connection.execute("UPDATE users SET karma = 9 WHERE name = 'bob'")
        new, newer = self.folder / "new.db", self.folder / "newer.db"
        self.schema.write_text(FIRST + ADDED.replace("7", "8") + "ALTER TABLE users ADD COLUMN ok BOOL DEFAULT TRUE;")
        tell, wanted = io.StringIO(), [("ann", "rome", 7, True), ("bob", None, 9, True), ("c" * 20, "it's", 7, True)]
        self.assertEqual(rebuild(str(self.path), str(new), self.schema, tell, {}), Rebuilt(3, 0))
        rows = self.open(new).execute("SELECT * FROM users ORDER BY name LIMIT 9").fetchall()
        self.assertEqual(rows, wanted)
        done = rebuild(str(self.path), str(newer), self.schema, tell, {("users", "ok"): False})
        self.assertEqual(done, Rebuilt(3, 0))
        rows = self.open(newer).execute("SELECT * FROM users ORDER BY name LIMIT 9").fetchall()
        self.assertEqual(rows, [(*row[:3], False) for row in wanted])

    def test_rebuild_makes_counters_before_the_rows(self) -> None:
        self.rows_of_old()
        with self.open() as connection:
            connection.execute("INSERT INTO users VALUES ('dan', 'rome')")
        new, newer = self.folder / "new.db", self.folder / "newer.db"
        self.schema.write_text(FIRST + COUNTED)
        self.assertEqual(rebuild(str(self.path), str(new), self.schema, io.StringIO(), {}), Rebuilt(4, 0))
        with self.open(new) as connection:
            found = [connection.execute("READ of_town (?)", (town,)).fetchall() for town in ("rome", "it's", "oslo")]
        self.assertEqual(found, [[(2,)], [(1,)], [(0,)]])
        self.schema.write_text(FIRST)
        tell = io.StringIO()
        self.assertEqual(rebuild(str(new), str(newer), self.schema, tell, {}), Rebuilt(4, 0))
        self.assertIn("counter of_town is left out\n", tell.getvalue())

    def test_rebuild_leaves_out(self) -> None:
        self.rows_of_old()
        self.schema.write_text("CREATE TABLE people (name TEXT(20), PRIMARY KEY (name));")
        tell = io.StringIO()
        done = rebuild(str(self.path), str(self.folder / "new.db"), self.schema, tell, {})
        self.assertEqual(done, Rebuilt(0, 0))
        self.assertIn("table users is left out\n", tell.getvalue())

    def test_a_refused_row_is_told_without_its_values(self) -> None:
        self.rows_of_old()
        self.schema.write_text("CREATE TABLE users (name TEXT(2), PRIMARY KEY (name));")
        tell = io.StringIO()
        self.assertEqual(rebuild(str(self.path), str(self.folder / "new.db"), self.schema, tell, {}), Rebuilt(0, 3))
        self.assertIn("users, row 2: E501 users name", tell.getvalue())
        for value in ("ann", "rome", "bob", "ccc"):
            self.assertNotIn(value, tell.getvalue())

    def test_in_the_place_of_the_old_file(self) -> None:
        self.rows_of_old()
        self.path.chmod(0o640)
        self.schema.write_text(FIRST + ADDED)
        tell = Trying(self.path)
        self.assertEqual(rebuild(str(self.path), None, self.schema, tell, {}), Rebuilt(3, 0))
        self.assertEqual(self.path.stat().st_mode & 0o777, 0o640)
        (aside,) = (it for it in self.folder.glob("store.db.until-*") if not it.name.endswith("-wal"))
        self.assertEqual(tell.getvalue().splitlines()[-1], f"what was {self.path} is {aside}")
        for path, columns in ((self.path, 3), (aside, 2)):
            rows = self.open(path).execute("SELECT * FROM users ORDER BY name LIMIT 9").fetchall()
            self.assertEqual([len(row) for row in rows], [columns] * 3)

    def test_nobody_writes_meanwhile(self) -> None:
        self.rows_of_old()
        tell = Trying(self.path)
        rebuild(str(self.path), str(self.folder / "new.db"), self.schema, tell, {})
        self.assertEqual(tell.found, {"database is locked"})

    def test_words_of_the_command(self) -> None:
        self.rows_of_old()
        environment = {**os.environ, "PYTHONPATH": str(TOP / "drivers/python")}
        for words, status in ((["new.db", "--replace"], 2), ([], 2), (["--replace"], 0)):
            new = [str(self.folder / it) for it in words if it == "new.db"]
            given = ["rebuild", self.path, *new, self.schema, *(it for it in words if it != "new.db")]
            done = subprocess.run([sys.executable, "-m", "piql", *given], env=environment, capture_output=True)
            with self.subTest(words):
                self.assertEqual(done.returncode, status, done.stderr)
