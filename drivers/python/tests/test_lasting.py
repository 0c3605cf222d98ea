"""Connections that last: more statements than a run takes, many openings and rows, a full disk, killed runs."""

import os
import random
import signal
import subprocess
import threading
import unittest

from helpers import engine_of, needs_file, needs_memory, needs_speed, new_folder, piql

COUNT = "SELECT a FROM t ORDER BY a LIMIT 1000"


def all_rows(connection: piql.Connection, query: str) -> list[piql.Row]:
    """The rows of all pages of a query."""
    cursor = connection.execute(query)
    found = cursor.fetchall()
    while after := cursor.next_page:
        cursor = connection.execute(query, after=after)
        found += cursor.fetchall()
    return found


@needs_file
@needs_speed
class LastingTest(unittest.TestCase):
    """Each test has a file of its own."""

    def setUp(self) -> None:
        self.path = new_folder(self) / "store.db"

    def open(self) -> piql.Connection:
        connection = piql.connect(self.path, prepare=True)
        self.addCleanup(connection.close)
        return connection

    def test_forty_megabytes_of_statements(self) -> None:
        connection = self.open()
        connection.execute("CREATE TABLE t (a INT, PRIMARY KEY (a))")
        first = engine_of(connection)
        sent = 0
        for number in range(40_000_000 // 65_000 + 1):
            statement = f"INSERT INTO t{' ' * 64_970}VALUES ({number});"
            sent += len(statement)
            connection.execute(statement)
        self.assertGreater(sent, 40_000_000)
        self.assertIsNot(engine_of(connection), first)
        self.assertEqual(len(connection.execute(COUNT).fetchall()), number + 1)

    def test_a_hundred_openings(self) -> None:
        with self.open() as connection:
            connection.execute("CREATE TABLE t (a INT, PRIMARY KEY (a))")
        for number in range(100):
            with piql.connect(self.path) as connection:
                connection.execute("INSERT INTO t VALUES (?)", (number,))
                self.assertEqual(len(connection.execute(COUNT).fetchall()), number + 1)
                self.assertEqual(len(connection.schema().definitions), 1)

    def test_ten_thousand_rows(self) -> None:
        connection = self.open()
        connection.execute("CREATE TABLE t (a INT, b TEXT(10), PRIMARY KEY (a))")
        rows = [(number, f"row {number}") for number in range(10_000)]
        cursor = connection.cursor().executemany("INSERT INTO t VALUES (?, ?)", rows)
        self.assertEqual(cursor.rowcount, 10_000)
        self.assertEqual(all_rows(connection, "SELECT a, b FROM t ORDER BY a PAGINATE 1000"), rows)

    def test_definitions_run_out(self) -> None:
        connection = self.open()
        connection.execute("CREATE TABLE t (a INT, PRIMARY KEY (a))")
        with self.assertRaises(piql.NotSupportedError) as caught:
            for number in range(1, 300):
                connection.execute(f"SELECT a FROM t ORDER BY a LIMIT {number}")
        self.assertEqual((caught.exception.number, caught.exception.fields), ("E206", {"word": "definitions"}))
        self.assertEqual(len(connection.schema().definitions), 256)
        self.assertIn("rebuild", caught.exception.way_out or "")

    def test_indexes_run_out(self) -> None:
        connection = self.open()
        columns = [f"c{i}" for i in range(17)]
        connection.execute(f"CREATE TABLE t (a INT, {', '.join(f'{it} INT' for it in columns)}, PRIMARY KEY (a))")
        with self.assertRaises(piql.NotSupportedError) as caught:
            for column in columns:
                connection.execute(f"SELECT a FROM t ORDER BY {column} LIMIT 1")
        self.assertEqual(caught.exception.fields, {"word": "indexes"})
        self.assertIn("rebuild", caught.exception.way_out or "")

    def test_killed_in_mid_statement(self) -> None:
        connection = self.open()
        connection.execute("CREATE TABLE t (a INT, b INT, PRIMARY KEY (a), CARDINALITY LIMIT 10000 (b))")
        made: list[object] = []
        source = random.Random(9)
        for _ in range(5):
            process = engine_of(connection).process
            killer = threading.Timer(source.random() * 0.1, os.kill, (process.pid, signal.SIGKILL))
            killer.start()
            with self.assertRaises(piql.OperationalError) as caught:
                while True:
                    number = len(made)
                    connection.execute("INSERT INTO t VALUES (?, ?)", (number, number % 7))
                    made.append(number)
            killer.join()
            self.assertEqual(caught.exception.status, -signal.SIGKILL)
            rows: list[object] = [row[0] for row in all_rows(connection, "SELECT a FROM t ORDER BY a PAGINATE 1000")]
            # The write that was under way was made or not.
            self.assertEqual(rows, list(range(len(rows))))
            self.assertIn(len(rows), (len(made), len(made) + 1))
            made = rows


@needs_file
class FullDiskTest(unittest.TestCase):
    """A file on a disk of half a mebibyte."""

    def test_full_disk(self) -> None:
        place = new_folder(self) / "disk"
        place.mkdir()
        mount = subprocess.run(["mount", "-t", "tmpfs", "-o", "size=512k", "piql-test", place], capture_output=True)
        if mount.returncode != 0:
            self.skipTest("a small tmpfs can't be mounted here")
        self.addCleanup(lambda: subprocess.run(["umount", place], check=True))
        connection = piql.connect(place / "store.db")
        self.addCleanup(connection.close)
        connection.execute("CREATE TABLE t (a INT, b TEXT(1000), PRIMARY KEY (a))")
        made = 0
        with self.assertRaises(piql.OperationalError) as caught:
            for made in range(1000):
                connection.execute("INSERT INTO t VALUES (?, ?)", (made, "x" * 1000))
        self.assertEqual(caught.exception.status, 5)
        self.assertIn("is full, so the run ended with status 5", str(caught.exception))
        self.assertIn("whole or not at all", str(caught.exception))


@needs_memory
@needs_speed
class MemoryLimitTest(unittest.TestCase):
    """A store in memory ends with its run."""

    def test_what_memory_can_not_keep(self) -> None:
        connection = piql.connect(":memory:")
        self.addCleanup(connection.close)
        connection.execute("CREATE TABLE t (a INT, PRIMARY KEY (a))")
        connection.execute("PREPARE q AS SELECT a FROM t WHERE a = 1")
        with self.assertRaises(piql.OperationalError) as caught:
            for _ in range(300):
                connection.execute(f"RUN{' ' * 65_000}q")
        self.assertIn("16,777,216", str(caught.exception))
        self.assertIn("lost", str(caught.exception))
