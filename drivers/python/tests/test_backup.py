"""Copies of a store's file: what they have, who may read them, and what stands where they are made."""

import os
import stat
import unittest
from pathlib import Path

from helpers import PIQL_FILE, needs_file, new_folder, piql
from piql.backup import copy_whole
from piql.private import copy_file, new_file, put_in_place

TABLE = "CREATE TABLE t (a INT, PRIMARY KEY (a));"
ROWS = "SELECT a FROM t ORDER BY a LIMIT 9"


def mode_of(path: Path) -> int:
    """The rights of a file."""
    return stat.S_IMODE(path.stat().st_mode)


class PrivateTest(unittest.TestCase):
    """New files, without an engine."""

    def setUp(self) -> None:
        self.folder = new_folder(self)
        self.path = self.folder / "new"
        mask = os.umask(0o022)
        self.addCleanup(os.umask, mask)

    def test_a_new_file_is_its_owners(self) -> None:
        os.umask(0)
        os.close(new_file(self.path))
        self.assertEqual(mode_of(self.path), 0o600)

    def test_nothing_that_is_there_is_written(self) -> None:
        victim = self.folder / "victim"
        victim.write_text("mine")
        for link in (victim, self.folder / "nothing"):
            self.path.symlink_to(link)
            self.assertRaises(FileExistsError, new_file, self.path)
            self.assertRaises(FileExistsError, put_in_place, str(victim), str(self.path))
            self.path.unlink()
        self.assertEqual((victim.read_text(), os.listdir(self.folder)), ("mine", ["victim"]))

    def test_a_copy_has_the_rights_of_its_source(self) -> None:
        source = self.folder / "source"
        source.write_text("mine")
        for mode in (0o600, 0o640, 0o444, 0o666):
            source.chmod(mode)
            copy_file(str(source), str(self.path))
            self.assertEqual((mode_of(self.path), self.path.read_text()), (mode, "mine"))
            self.path.unlink()


@needs_file
class BackupTest(unittest.TestCase):
    """Copies of a file, beside its run."""

    def setUp(self) -> None:
        self.folder = new_folder(self)
        self.path, self.copy = self.folder / "store.db", self.folder / "copy.db"
        self.connection = self.open(self.path)
        self.connection.execute(TABLE)
        self.connection.execute("INSERT INTO t VALUES (1)")

    def open(self, path: Path) -> piql.Connection:
        connection = piql.connect(path)
        self.addCleanup(connection.close)
        return connection

    def test_a_copy_is_whole_and_alone(self) -> None:
        self.connection.backup(self.copy)
        self.connection.execute("INSERT INTO t VALUES (2)")
        self.assertEqual([it.name for it in self.folder.glob("copy*")], ["copy.db"])
        self.assertEqual(self.open(self.copy).execute(ROWS).fetchall(), [(1,)])

    def test_a_new_store_is_its_owners_and_so_is_a_copy(self) -> None:
        self.assertEqual({mode_of(it) for it in self.folder.glob("store.db*")}, {0o600})
        self.connection.backup(self.copy)
        self.assertEqual(mode_of(self.copy), 0o600)

    def test_what_is_named_as_a_part_stays(self) -> None:
        victim = self.folder / "victim"
        victim.write_text("mine")
        Path(f"{self.copy}.part").symlink_to(victim)
        Path(f"{self.copy}.part-wal").write_text("mine too")
        self.connection.backup(self.copy)
        self.assertEqual(victim.read_text(), "mine")
        self.assertTrue(Path(f"{self.copy}.part").is_symlink())
        self.assertEqual(Path(f"{self.copy}.part-wal").read_text(), "mine too")
        self.assertFalse(self.copy.is_symlink())

    def test_a_name_that_is_taken_is_refused(self) -> None:
        self.copy.symlink_to(self.folder / "nothing")
        with self.assertRaisesRegex(piql.OperationalError, "has to be a new file"):
            self.connection.backup(self.copy)
        self.assertFalse((self.folder / "nothing").exists())
        self.copy.unlink()
        Path(f"{self.copy}-wal").write_text("mine")
        with self.assertRaisesRegex(piql.OperationalError, "has to be a new file"):
            self.connection.backup(self.copy)

    def test_a_link_to_a_file_is_copied_with_the_log(self) -> None:
        self.connection.close()
        link = self.folder / "link.db"
        link.symlink_to(self.path)
        connection = self.open(link)
        connection.execute("INSERT INTO t VALUES (3)")
        connection.backup(self.copy)
        self.assertEqual(self.open(self.copy).execute(ROWS).fetchall(), [(1,), (3,)])

    def test_a_copy_that_fails_leaves_nothing(self) -> None:
        before = sorted(os.listdir(self.folder))
        assert PIQL_FILE is not None
        cases = {str(self.copy): "/bin/false", str(self.folder / "no/copy.db"): PIQL_FILE}
        for copy, program in cases.items():
            with self.subTest(copy), self.assertRaises(piql.OperationalError):
                copy_whole(str(self.path), copy, program)
        self.assertEqual(sorted(os.listdir(self.folder)), before)
