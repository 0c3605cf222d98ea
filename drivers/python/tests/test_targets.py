"""Commands for files alone, given what is no file."""

import contextlib
import io
import subprocess
import sys
import unittest

from helpers import TOP, new_folder, piql
from piql.__main__ import main
from piql.bounds import read_bounds
from piql.migrate import read_script
from piql.targets import check_files
from piql.verify import verify

URL = "postgresql://site:hunter2@a,b/site?sslpassword=hunter2"
WORDS = (
    ["restore", URL, "a.db"],
    ["restore", "a.db", URL],
    ["rebuild", URL, "new.db", "schema.piql"],
    ["rebuild", URL, "schema.piql", "--replace"],
    ["rebuild", "a.db", URL, "schema.piql"],
    ["make", URL, "1.piql"],
)


class TargetsTest(unittest.TestCase):
    """No password is told."""

    def test_a_file_is_one(self) -> None:
        check_files("a.db", None, "./unix:", "/a//b")
        for name in (URL, "etcd://a/b", "unix:/run/socket", "a\0b", "", 5):
            self.assertRaises(piql.InterfaceError, check_files, "a.db", name)

    def test_what_is_no_path_is_refused(self) -> None:
        for path in ("a\0b", "", 5, "\ud800"):
            for work in (read_bounds, read_script, lambda it: verify(it, io.StringIO(), io.StringIO())):
                with self.subTest(path), self.assertRaises(piql.InterfaceError):
                    work(path)

    def test_what_is_no_list_of_bounds(self) -> None:
        path = new_folder(self) / "bounds.lock"
        for text in (None, "a 1\n", "a 1 x\n", "\udcff 1 1\n"):
            if text is not None:
                path.write_bytes(text.encode(errors="surrogateescape"))
            with self.subTest(text), self.assertRaises(piql.DatabaseError):
                read_bounds(path)

    def test_a_url_is_refused_without_its_password(self) -> None:
        for words in WORDS:
            with self.subTest(words), contextlib.redirect_stderr(io.StringIO()) as told:
                self.assertEqual(main(words), 2)
                self.assertIn("is no file", told.getvalue())
                self.assertNotIn("hunter2", told.getvalue())

    def test_a_dump_of_a_url(self) -> None:
        run = subprocess.run([sys.executable, "-B", TOP / "bin/dump", URL], capture_output=True, text=True)
        self.assertEqual((run.returncode, run.stdout), (1, ""))
        self.assertIn("is no file", run.stderr)
        self.assertNotIn("hunter2", run.stderr)
