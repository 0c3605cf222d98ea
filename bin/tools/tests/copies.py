"""What tests of the commands share: the commands in a folder of their own, beside programs that a test gives."""

import os
import pathlib
import shutil
import subprocess
import tempfile
import unittest

from tools.repository import TOP


def built(name: str) -> pathlib.Path | None:
    """A program to test with: that of the environment (PIQL, PIQL_FILE), the one built last, or the kept one."""
    given = os.environ.get(name.upper())
    kept = sorted((TOP / "out" / "unproved").glob(f"{name}-????????????????"))
    found = [pathlib.Path(given)] if given else [TOP / "crates" / name / "out" / name, *kept]
    return next((path for path in found if os.access(path, os.X_OK)), None)


def new_folder(case: unittest.TestCase) -> pathlib.Path:
    folder = tempfile.TemporaryDirectory()
    case.addCleanup(folder.cleanup)
    return pathlib.Path(folder.name)


class Copy:
    """The commands, in a folder that has no sources."""

    def __init__(self, case: unittest.TestCase) -> None:
        self.top = new_folder(case)
        ignored = shutil.ignore_patterns("tests", "__pycache__")
        shutil.copytree(TOP / "bin", self.top / "bin", ignore=ignored)
        shutil.copytree(TOP / "drivers", self.top / "drivers", ignore=ignored, symlinks=True)
        (self.top / "programs").mkdir()

    def put_documents(self) -> None:
        """The documents. The Python package reads one of them."""
        shutil.copytree(TOP / "docs", self.top / "docs")

    def put_program(self, name: str, program: pathlib.Path) -> None:
        """A program that is there."""
        (self.top / "programs" / name).symlink_to(program)

    def put_script(self, name: str, lines: str) -> None:
        """A program in the shell's language."""
        path = self.top / "programs" / name
        path.write_text("#!/bin/sh\n" + lines)
        path.chmod(0o755)

    def run(self, name: str, *words: str, script: bytes = b"") -> subprocess.CompletedProcess[bytes]:
        """Runs a command over a script."""
        return subprocess.run([self.top / "bin" / name, *words], input=script, capture_output=True, cwd=self.top)
