"""The package is installed by pip, without a network."""

import importlib.util
import shutil
import subprocess
import sys
import unittest

from helpers import TOP, new_folder


class FolderTest(unittest.TestCase):
    """The folder of the modules, by itself."""

    def test_it_has_what_it_tells(self) -> None:
        own, document = TOP / "drivers/python/piql/REFUSALS.md", TOP / "docs/REFUSALS.md"
        self.assertEqual(own.read_bytes(), document.read_bytes(), "cp docs/REFUSALS.md drivers/python/piql/")

    def test_a_copy_tells_a_refusal(self) -> None:
        folder = new_folder(self)
        shutil.copytree(TOP / "drivers/python/piql", folder / "piql")
        code = "from piql.refusals import refusal_of; print(refusal_of(('E503', 't'), '').headline)"
        run = subprocess.run([sys.executable, "-c", code], cwd=folder, capture_output=True, text=True)
        self.assertEqual((run.stdout, run.stderr), ("a row with this key is there.\n", ""))


@unittest.skipUnless(importlib.util.find_spec("pip"), "pip is not installed")
class PackageTest(unittest.TestCase):
    """pip over the folder."""

    def test_pip_installs_the_folder(self) -> None:
        folder = new_folder(self)
        how = ["--quiet", "--no-index", "--no-deps", "--disable-pip-version-check", "--target", str(folder)]
        words = [sys.executable, "-m", "pip", "install", *how, str(TOP / "drivers/python")]
        installed = subprocess.run(words, capture_output=True, text=True)
        self.assertEqual(installed.returncode, 0, installed.stderr)
        code = "import piql, piql.refusals; print(piql.__file__, 'E503' in piql.refusals.rules())"
        run = subprocess.run([sys.executable, "-c", code], cwd=folder, capture_output=True, text=True)
        self.assertEqual(run.stdout, f"{folder}/piql/__init__.py True\n", run.stderr)
        self.assertTrue((folder / "piql/py.typed").exists())
        (info,) = folder.glob("piql-*.dist-info")
        self.assertIn("\nLicense: Apache-2.0\n", (info / "METADATA").read_text())
        for name in ("LICENSE", "NOTICE"):
            self.assertEqual((info / name).read_bytes(), (TOP / name).read_bytes())
