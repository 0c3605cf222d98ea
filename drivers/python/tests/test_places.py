"""A store's file that is removed, replaced, moved or can't be used, and what is told of it."""

import os
import sqlite3
import stat
import subprocess
import unittest

from helpers import engine_of, needs_file, new_folder, piql
from pipes import RECORDING, PipeCase
from piql.causes import HEAD, SHAPE, cause_of, is_locked
from piql.scripts import SCRIPT_BYTES


class GoneTest(PipeCase):
    """A file that isn't there any more, beneath its engine."""

    def setUp(self) -> None:
        super().setUp()
        self.path = self.folder / "store.db"
        self.connection = self.open()

    def check_gone(self, text: str = "INSERT INTO t VALUES (1)") -> None:
        """A statement isn't told, and neither is any after it."""
        process = engine_of(self.connection).process
        for _ in range(2):
            with self.assertRaises(piql.StoreGone) as caught:
                self.connection.execute(text)
            self.assertIn("made or not made", str(caught.exception))
        self.assertIsNotNone(process.poll())

    def test_removed(self) -> None:
        self.connection.execute("INSERT INTO t VALUES (0)")
        self.path.unlink()
        self.check_gone()
        self.assertFalse(self.path.exists())

    def test_replaced(self) -> None:
        other = self.path.with_name("other.db")
        other.write_bytes(b"another file")
        other.rename(self.path)
        self.check_gone("RUN q")
        self.assertEqual(self.path.read_bytes(), b"another file")

    def test_put_back_too_late(self) -> None:
        aside = self.path.with_name("aside.db")
        self.path.rename(aside)
        self.check_gone()
        aside.rename(self.path)
        with self.assertRaises(piql.StoreGone):
            self.connection.execute("RUN q")

    def test_no_file_is_begun_at_a_rollover(self) -> None:
        engine_of(self.connection).sent = SCRIPT_BYTES
        self.path.unlink()
        with self.assertRaises(piql.StoreGone):
            self.connection.execute("RUN q")
        self.assertFalse(self.path.exists())
        with self.assertRaises(piql.StoreGone):
            self.connection.backup(self.folder / "copy.db")

    def test_no_file_is_begun_behind_an_engine_that_ended(self) -> None:
        engine_of(self.connection).process.kill()
        with self.assertRaises(piql.OperationalError):
            self.connection.execute("RUN q")
        self.path.unlink()
        with self.assertRaises(piql.StoreGone):
            self.connection.execute("RUN q")
        self.assertFalse(self.path.exists())

    def test_a_process_that_goes_elsewhere(self) -> None:
        before = os.getcwd()
        self.addCleanup(os.chdir, before)
        os.chdir(self.folder)
        with piql.connect("near.db", program=RECORDING) as near:
            os.chdir("/")
            self.assertEqual(near.execute("RUN q").fetchall(), [])
            engine_of(near).sent = SCRIPT_BYTES
            self.assertEqual(near.execute("RUN q").fetchall(), [])
        self.assertTrue((self.folder / "near.db").exists())

    def test_a_new_file_is_its_owner_s(self) -> None:
        before = os.umask(0)
        self.addCleanup(os.umask, before)
        piql.connect(self.folder / "new.db", program=RECORDING).close()
        self.assertEqual(stat.S_IMODE((self.folder / "new.db").stat().st_mode), 0o600)


class CauseTest(unittest.TestCase):
    """What shows of a file that can't be used."""

    def setUp(self) -> None:
        self.folder = new_folder(self)
        self.path = self.folder / "store.db"

    def store(self, shape: str = SHAPE) -> None:
        """A file of SQLite with one table."""
        file = sqlite3.connect(self.path)
        file.execute(shape)
        file.close()

    def test_what_the_file_is(self) -> None:
        self.assertIn("no folder", cause_of(str(self.folder / "none" / "store.db")))
        self.assertIn("no plain file", cause_of(str(self.folder)))
        self.path.write_bytes(b"no database" * 100)
        self.assertIn("no SQLite file", cause_of(str(self.path)))
        self.path.write_bytes(HEAD + b"nonsense" * 100)
        self.assertIn("SQLite can't read", cause_of(str(self.path)))
        self.path.unlink()
        os.symlink("nowhere", self.path)
        self.assertIn("can't be looked at: No such file", cause_of(str(self.path)))

    def test_a_second_name(self) -> None:
        self.store()
        os.link(self.path, self.folder / "other.db")
        self.assertIn("second name", cause_of(str(self.path)))

    def test_another_program_s_table(self) -> None:
        self.store("CREATE TABLE kv (k TEXT, v TEXT)")
        self.assertIn("of another program", cause_of(str(self.path)))

    def test_a_lock(self) -> None:
        self.store()
        self.assertFalse(is_locked(str(self.path)))
        other = sqlite3.connect(self.path)
        self.addCleanup(other.close)
        other.execute("BEGIN EXCLUSIVE")
        self.assertTrue(is_locked(str(self.path)))
        self.assertIn("another process has", cause_of(str(self.path)))

    def test_no_cause_that_shows(self) -> None:
        self.store()
        self.assertIn("show no cause", cause_of(str(self.path)))

    @unittest.skipIf(os.geteuid() == 0, "root may write everything")
    def test_rights(self) -> None:
        self.store()
        self.path.chmod(0o400)
        self.assertIn("may not be written", cause_of(str(self.path)))

    def test_a_full_disk(self) -> None:
        place = self.folder / "disk"
        place.mkdir()
        mount = subprocess.run(["mount", "-t", "tmpfs", "-o", "size=64k", "piql-test", place], capture_output=True)
        if mount.returncode != 0:
            self.skipTest("a small tmpfs can't be mounted here")
        self.addCleanup(lambda: subprocess.run(["umount", place], check=True))
        self.assertIn("is full", cause_of(str(place / "store.db")))


@needs_file
class OpeningTest(unittest.TestCase):
    """The engine's own status, with the cause before it."""

    def test_openings(self) -> None:
        folder = new_folder(self)
        (folder / "text.db").write_bytes(b"no database" * 100)
        for path, cause in ((folder / "text.db", "is no SQLite file"), (folder / "none" / "a.db", "has no folder")):
            with self.subTest(cause), self.assertRaises(piql.OperationalError) as caught:
                piql.connect(path)
            self.assertTrue(str(caught.exception).startswith(f"{path} {cause}, so the run ended with status 5"))
            self.assertEqual(caught.exception.status, 5)
