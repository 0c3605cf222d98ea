"""A copy in the place of a file: what is refused, what stands where it is killed, and where the old file is."""

import io
import os
import shutil
import sqlite3
import stat
import subprocess
import sys
import unittest
from pathlib import Path
from unittest import mock

from helpers import TOP, needs_file, new_folder, piql
from killing import each_kill, fold, is_killed, make_store, pairs_of
from piql import restore as restoring
from piql.holding import held, held_for_reading
from piql.replacing import replace, unused_name
from piql.restore import restore
from piql.verify import Verified

TABLE = b"CREATE TABLE t (a INT, PRIMARY KEY (a));"
DEFINITION = {b"\x01\x00\x01": b"\x01\x00" + TABLE}
LATER = {b"\x01\x00\x01": b"\x03\x00" + TABLE}


def row(number: int) -> dict[bytes, bytes]:
    """The pair of a row."""
    return {b"\x02\x01\x10\x80" + number.to_bytes(7): b"\x01" + number.to_bytes(8)}


OLD, LOGGED, NEW = DEFINITION | row(1), row(2), DEFINITION | row(3)


class HoldingTest(unittest.TestCase):
    """The lock on a file."""

    def setUp(self) -> None:
        self.folder = new_folder(self)
        self.path = self.folder / "store.db"
        make_store(self.path, OLD, {})

    def test_nobody_opens_a_file_that_is_held(self) -> None:
        for lock, refused in ((held, "SELECT * FROM kv"), (held_for_reading, "BEGIN EXCLUSIVE")):
            with lock(str(self.path)):
                file = sqlite3.connect(self.path, timeout=0)
                with self.assertRaisesRegex(sqlite3.OperationalError, "locked"):
                    file.execute("PRAGMA locking_mode = exclusive")
                    file.execute(refused)
                # What this process closes gives nothing back.
                file.close()
                other = sqlite3.connect(self.path, timeout=0)
                with self.assertRaisesRegex(sqlite3.OperationalError, "locked"):
                    other.execute("PRAGMA locking_mode = exclusive")
                    other.execute(refused)
                other.close()
        self.assertEqual(pairs_of(self.path, self.folder), OLD)

    def test_a_file_that_somebody_has_is_not_held(self) -> None:
        file = sqlite3.connect(self.path)
        file.execute("SELECT * FROM kv").fetchone()
        self.addCleanup(file.close)
        with self.assertRaisesRegex(piql.OperationalError, "somebody has .* open"), held(str(self.path)):
            pass

    def test_a_link_is_not_held(self) -> None:
        link = self.folder / "link.db"
        link.symlink_to(self.path)
        with self.assertRaisesRegex(piql.OperationalError, "it is a link"), held(str(link)):
            pass
        with self.assertRaisesRegex(piql.OperationalError, "No such file"), held(str(self.folder / "no")):
            pass


class ReplacingTest(unittest.TestCase):
    """Names, without an engine and without a copy."""

    def test_names_are_unused(self) -> None:
        path = new_folder(self) / "store.db"
        first = unused_name(str(path))
        Path(first + "-wal").touch()
        with mock.patch("time.strftime", return_value=first.rpartition("-")[2]):
            self.assertEqual(unused_name(str(path)), first + "-2")

    def test_without_a_second_name_all_stays(self) -> None:
        folder = new_folder(self)
        path, part = folder / "store.db", folder / "part"
        for name in (path, folder / "store.db-wal", part):
            name.write_text(name.name)
        with mock.patch("os.link", side_effect=[None, OSError("no second names")]), mock.patch("os.unlink") as unlink:
            self.assertRaises(OSError, replace, str(part), str(path))
        self.assertEqual(len(unlink.mock_calls), 1)
        self.assertEqual(sorted(os.listdir(folder)), ["part", "store.db", "store.db-wal"])
        self.assertEqual(path.read_text(), "store.db")


class RestoreTest(unittest.TestCase):
    """Files that were written by hand; SQLite folds their logs in place of an engine."""

    def setUp(self) -> None:
        self.folder = new_folder(self)
        self.path, self.copy = self.folder / "d/store.db", self.folder / "copy.db"
        self.path.parent.mkdir()
        for name, stub in (("make_one_file", fold), ("verify", lambda *_: Verified(2, self.differences))):
            patched = mock.patch.object(restoring, name, stub)
            patched.start()
            self.addCleanup(patched.stop)
        self.differences = 0
        make_store(self.copy, DEFINITION, row(3))

    def make_old(self) -> None:
        """The file of before, with a log, alone in its folder."""
        shutil.rmtree(self.path.parent)
        self.path.parent.mkdir()
        make_store(self.path, OLD, LOGGED)
        Path(f"{self.path}-shm").write_bytes(b"\0" * 32768)

    def work(self) -> str:
        """Restores; what is told."""
        tell = io.StringIO()
        restore(str(self.copy), str(self.path), tell, "/bin/true")
        return tell.getvalue()

    def aside(self) -> list[Path]:
        """What the file of before is called."""
        return [it for it in self.path.parent.glob("store.db.until-*") if it.name[-4:] not in ("-wal", "-shm")]

    def test_restore(self) -> None:
        self.make_old()
        told = self.work()
        (aside,) = self.aside()
        self.assertEqual(told, f"what was {self.path} is {aside}; a file {aside}-wal belongs to it\n")
        self.assertEqual(pairs_of(self.path, self.folder), NEW)
        self.assertEqual(pairs_of(aside, self.folder), OLD | LOGGED)
        names = [aside.name + ending for ending in ("", "-shm", "-wal")]
        self.assertEqual(sorted(os.listdir(self.path.parent)), ["store.db", *names])
        self.assertEqual([it.stat().st_nlink for it in (self.path, aside)], [1, 1])
        self.assertEqual(pairs_of(self.copy, self.folder), NEW)

    def test_a_restored_file_has_the_rights_of_the_one_before(self) -> None:
        for mode in (0o600, 0o640):
            self.make_old()
            self.path.chmod(mode)
            self.work()
            self.assertEqual(stat.S_IMODE(self.path.stat().st_mode), mode)

    def test_where_no_file_is(self) -> None:
        self.assertEqual(self.work(), "")
        self.assertEqual(pairs_of(self.path, self.folder), NEW)
        self.assertEqual(os.listdir(self.path.parent), ["store.db"])

    def test_a_log_without_its_file_is_set_aside(self) -> None:
        self.make_old()
        self.path.unlink()
        self.work()
        self.assertEqual(pairs_of(self.path, self.folder), NEW)
        self.assertEqual(len(list(self.path.parent.glob("store.db.until-*-wal"))), 1)

    def test_a_file_that_is_no_store_is_set_aside_as_it_is(self) -> None:
        self.make_old()
        self.path.write_bytes(b"damaged by a disk" * 999)
        self.work()
        self.assertEqual(pairs_of(self.path, self.folder), NEW)
        self.assertEqual(self.aside()[0].read_bytes(), b"damaged by a disk" * 999)

    def test_killed_at_each_step(self) -> None:
        self.make_old()
        steps = 0
        for steps in each_kill(self.work):
            with self.subTest(steps):
                self.check_killed()
            self.make_old()
        self.assertGreater(steps, 20)

    def check_killed(self) -> None:
        """One whole store stands under the name, and nothing of the old one is lost; a second restore ends it."""
        there = pairs_of(self.path, self.folder)
        has_log = os.path.exists(f"{self.path}-wal")
        whole = [pairs_of(it, self.folder) for it in self.aside()]
        if there == NEW:
            self.assertFalse(has_log)
        else:
            self.assertEqual(there, OLD | LOGGED if has_log else OLD)
        self.assertIn(OLD | LOGGED, [there, *whole])
        self.assertEqual(pairs_of(self.copy, self.folder), NEW)
        self.work()
        self.assertEqual(pairs_of(self.path, self.folder), NEW)
        self.assertEqual(self.path.stat().st_nlink, 1)
        self.assertIn(OLD | LOGGED, [pairs_of(it, self.folder) for it in self.aside()])

    def test_an_engine_refuses_what_a_kill_left_between(self) -> None:
        self.make_old()
        step = 1
        while is_killed(step, self.work) and self.path.stat().st_nlink == 1:
            step += 1
        self.assertEqual(self.path.stat().st_nlink, 2)
        # From then on the file has two names, until the new one is in its place.
        while is_killed(step, self.work):
            is_new = pairs_of(self.path, self.folder) == NEW
            self.assertEqual(is_new, self.path.stat().st_nlink == 1)
            step += 1
            self.make_old()

    def refused(self, why: str) -> None:
        """What is refused leaves all as it was."""
        before = {name: (self.path.parent / name).read_bytes() for name in os.listdir(self.path.parent)}
        with self.assertRaisesRegex(piql.DatabaseError, why):
            self.work()
        after = {name: (self.path.parent / name).read_bytes() for name in os.listdir(self.path.parent)}
        self.assertEqual(after, before)

    def test_a_copy_that_is_none_is_refused(self) -> None:
        self.make_old()
        self.copy.unlink()
        Path(f"{self.copy}-wal").unlink()
        self.refused("No such file")
        self.copy.write_text("a text, and no database\n" * 900)
        self.refused("file is not a database")
        make_store(self.copy, LATER, {})
        self.refused("definition 1 was written by a later version")
        make_store(self.copy, DEFINITION | {b"\2\1" + bytes([i]): b"x" * 999 for i in range(99)}, {})
        whole = self.copy.read_bytes()
        self.copy.write_bytes(whole[:8192] + bytes(4096) + whole[12288:])
        self.refused("damaged")

    def test_a_copy_with_differences_is_refused(self) -> None:
        self.make_old()
        self.differences = 3
        self.refused("it has 3 differences")
        restore(str(self.copy), str(self.path), io.StringIO(), "/bin/true", is_unchecked=True)
        self.assertEqual(pairs_of(self.path, self.folder), NEW)

    def test_a_file_or_a_copy_that_somebody_has_is_refused(self) -> None:
        self.make_old()
        for path in (self.path, self.copy):
            with self.subTest(path), held(str(path)):
                self.refused("somebody has")

    def test_a_file_is_no_copy_of_itself(self) -> None:
        self.make_old()
        self.copy.unlink()
        self.copy.symlink_to(self.path)
        self.refused("is the file itself")
        other = self.path.with_name("link.db")
        other.symlink_to(self.path)
        with self.assertRaisesRegex(piql.OperationalError, "it is a link"):
            restore(str(self.folder / "copy.db-wal"), str(other), io.StringIO(), "/bin/true")


@needs_file
class CommandTest(unittest.TestCase):
    """Over the engine."""

    def run_piql(self, *words: Path | str) -> subprocess.CompletedProcess[str]:
        environment = {**os.environ, "PYTHONPATH": str(TOP / "drivers/python")}
        return subprocess.run([sys.executable, "-m", "piql", *words], env=environment, capture_output=True, text=True)

    def test_there_and_back(self) -> None:
        folder = new_folder(self)
        path, copy = folder / "store.db", folder / "copy.db"
        with piql.connect(path) as connection:
            connection.execute(TABLE.decode())
            connection.backup(copy)
            connection.execute("INSERT INTO t VALUES (1)")
            done = self.run_piql("restore", copy, path)
            self.assertEqual((done.returncode, done.stdout), (2, ""))
            self.assertIn("somebody has", done.stderr)
        done = self.run_piql("restore", copy, path)
        self.assertEqual((done.returncode, done.stderr), (0, ""))
        lines = done.stdout.splitlines()
        self.assertEqual(lines[0], "1 pair, 0 differences")
        aside = lines[1].removeprefix(f"what was {path} is ").partition(";")[0]
        for name, rows in ((path, []), (aside, [(1,)])):
            with piql.connect(name) as connection:
                self.assertEqual(connection.execute("SELECT a FROM t ORDER BY a LIMIT 9").fetchall(), rows)

    def test_a_copy_with_a_strange_definition(self) -> None:
        folder = new_folder(self)
        path, copy = folder / "store.db", folder / "copy.db"
        make_store(copy, {b"\x01\x00\x01": b"\x01\x00" + TABLE.replace(b"(a", b"( a")}, {})
        done = self.run_piql("restore", copy, path)
        self.assertEqual((done.returncode, done.stdout), (2, ""))
        self.assertIn("it is damaged, or a later version wrote it", done.stderr)
        self.assertEqual(os.listdir(folder), ["copy.db"])

    def test_a_copy_with_an_entry_of_no_row(self) -> None:
        folder = new_folder(self)
        path, copy = folder / "store.db", folder / "copy.db"
        make_store(copy, DEFINITION | {b"\x03\x01\x01x": b""}, {})
        done = self.run_piql("restore", copy, path)
        told = "03010178 no row asks for it\n2 pairs, 1 difference\n"
        self.assertEqual((done.returncode, done.stdout, os.listdir(folder)), (2, told, ["copy.db"]))
        self.assertEqual(self.run_piql("restore", "--unchecked", copy, path).returncode, 0)
