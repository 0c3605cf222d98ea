"""A new site: its files, and that they run at once."""

import os
import subprocess
import sys
import unittest

from helpers import TOP, needs_file, new_folder, piql
from piql.new_site import NAMES, TEMPLATE, make_site


class FilesTest(unittest.TestCase):
    def test_the_files_are_those_of_the_template(self) -> None:
        folder = new_folder(self) / "notes"
        self.assertEqual(make_site(str(folder)), list(NAMES))
        self.assertEqual({path.name for path in folder.iterdir()}, set(NAMES))
        self.assertEqual({path.name for path in TEMPLATE.iterdir() if path.is_file()}, set(NAMES))

    def test_nothing_is_written_over(self) -> None:
        folder = new_folder(self)
        (folder / "a").write_text("mine")
        self.assertRaises(piql.OperationalError, make_site, str(folder))
        self.assertRaises(piql.OperationalError, make_site, str(folder / "a"))
        self.assertEqual([path.name for path in folder.iterdir()], ["a"])
        self.assertEqual((folder / "a").read_text(), "mine")


@needs_file
class RunsTest(unittest.TestCase):
    """Over the engine."""

    def run_in(self, folder: str, *words: str) -> subprocess.CompletedProcess[str]:
        environment = {**os.environ, "PYTHONPATH": str(TOP / "drivers/python")}
        return subprocess.run([sys.executable, *words], cwd=folder, env=environment, capture_output=True, text=True)

    def test_its_own_tests_pass(self) -> None:
        folder = str(new_folder(self) / "notes")
        made = self.run_in(".", "-m", "piql", "new", folder)
        self.assertEqual(made.stdout.split(), [f"{folder}/{name}" for name in NAMES], made.stderr)
        run = self.run_in(folder, "-m", "unittest")
        self.assertEqual(run.returncode, 0, run.stderr)
        self.assertRegex(run.stderr, r"Ran [1-9]\d* tests")

    def test_the_bounds_are_those_that_the_engine_tells(self) -> None:
        folder = new_folder(self)
        with piql.connect(folder / "notes.db") as connection:
            piql.migrate(connection, TEMPLATE / "schema.piql")
            piql.write_bounds(connection, folder / "bounds.lock")
        self.assertEqual((folder / "bounds.lock").read_bytes(), (TEMPLATE / "bounds.lock").read_bytes())


if __name__ == "__main__":
    unittest.main()
