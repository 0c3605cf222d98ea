"""Tests of a release: what it has, when there is none, and that it runs without sources and toolchain."""

import hashlib
import os
import pathlib
import re
import shutil
import subprocess
import sys
import tarfile
import unittest
from collections.abc import Mapping

from tools import release
from tools.documents import blocks
from tools.repository import TOP, Repository
from tools.tests.copies import built, new_folder
from tools.versions import NUMBER

PIQL = built("piql")
GATE = "12 passed, 0 failed"
BLOCK = re.compile(r"^```report\n(.*?)^```$", re.MULTILINE | re.DOTALL)
# The interpreter and what every machine has.
PLACES = [str(pathlib.Path(sys.executable).parent), "/usr/bin", "/bin"]


class Unpacked:
    """A release that is unpacked in a folder of its own."""

    def __init__(self, case: unittest.TestCase, programs: Mapping[str, pathlib.Path]) -> None:
        folder = new_folder(case)
        self.tar = release.write_release(TOP, programs, GATE, folder / "made")
        with tarfile.open(self.tar) as tar:
            tar.extractall(folder / "elsewhere", filter="data")
        (self.top,) = (folder / "elsewhere").iterdir()

    def run(self, *words: str, script: bytes = b"") -> subprocess.CompletedProcess[bytes]:
        """Runs a command of it, where the toolchain isn't on the PATH."""
        how = {"input": script, "capture_output": True, "env": {"PATH": os.pathsep.join(PLACES)}}
        return subprocess.run([str(self.top / words[0]), *words[1:]], cwd=self.top, **how)


class ContentsTest(unittest.TestCase):
    def setUp(self) -> None:
        program = new_folder(self) / "program"
        program.write_text("#!/bin/sh\necho ran\n")
        self.release = Unpacked(self, {"piql": program, "piql_file": program})

    def test_the_checksums_are_those_of_the_files(self) -> None:
        lines = (self.release.top / "SHA256SUMS").read_text().splitlines()
        sums = {name: given for given, name in (line.split("  ") for line in lines)}
        files = {str(path.relative_to(self.release.top)) for path in self.release.top.rglob("*") if path.is_file()}
        self.assertEqual(files, {*sums, "SHA256SUMS"})
        for name, given in sums.items():
            self.assertEqual(hashlib.sha256((self.release.top / name).read_bytes()).hexdigest(), given, name)
        own = self.release.tar.with_suffix(".tar.sha256").read_text().split("  ")[0]
        self.assertEqual(hashlib.sha256(self.release.tar.read_bytes()).hexdigest(), own)

    def test_it_says_what_it_is(self) -> None:
        said = (self.release.top / "RELEASE").read_text()
        self.assertIn(f"version: {NUMBER} (language ", said)
        self.assertIn(f"gate: {GATE}\n", said)
        self.assertIn(NUMBER, (self.release.top / "CHANGES.md").read_text())

    def test_the_package_has_the_same_version(self) -> None:
        self.assertIn(f'\nversion = "{NUMBER}"\n', (TOP / "drivers/python/pyproject.toml").read_text())

    def test_the_notice_names_each_library_that_a_program_has_inside(self) -> None:
        repository = Repository(TOP)
        crates = {name for program in release.program_names(repository) for name in (program, *repository.below(program))}
        libraries = {used for name in crates for used in repository.uses[name]} - set(repository.uses)
        notice = (self.release.top / "NOTICE").read_text()
        self.assertEqual({name for name in libraries if f"\n  {name} " not in notice}, set())
        self.assertIn("sqlite", libraries)

    def test_the_same_is_packed_in_the_same_bytes(self) -> None:
        found = release.contents(TOP, {}, GATE)
        self.assertEqual(release.pack(found, "a", 1), release.pack(dict(reversed(found.items())), "a", 1))

    def test_the_first_page_leads_to_what_is_there(self) -> None:
        for path in re.findall(r"\]\(([^)#:]*)", (self.release.top / "README.md").read_text()):
            self.assertTrue((self.release.top / path).exists(), path)
        self.assertTrue((self.release.top / "docs/scripts/board.piql").exists())

    def test_each_command_has_its_modules(self) -> None:
        for name in release.COMMANDS:
            run = self.release.run(f"bin/{name}", "--help")
            self.assertNotIn(b"Error", run.stderr, name)

    def test_its_program_is_called_proved(self) -> None:
        self.assertIn(b", proved\n", self.release.run("bin/piql", "--version").stdout)


class NoReleaseTest(unittest.TestCase):
    def setUp(self) -> None:
        self.folder = new_folder(self)
        self.log, self.program = self.folder / "log", self.folder / "program"
        self.program.write_text("")

    def refused(self, text: str) -> str:
        self.log.write_text(text)
        with self.assertRaises(release.NoRelease) as caught:
            release.gate_line(self.log, {"piql": self.program})
        return str(caught.exception)

    def test_a_gate_that_failed_gives_none(self) -> None:
        for text in ("", "12 passed, 1 failed\n", "0 passed, 0 failed\n", "12 passed, 0 failed\nmore\n"):
            self.assertIn("doesn't end with", self.refused(text))

    def test_a_program_that_is_newer_than_the_gate_gives_none(self) -> None:
        os.utime(self.program, (4_000_000_000, 4_000_000_000))
        self.assertIn("a program was built after", self.refused(GATE + "\n"))

    def test_a_gate_that_passed_is_told(self) -> None:
        self.log.write_text(f"== piql\n{GATE}\n")
        self.assertEqual(release.gate_line(self.log, {"piql": self.program}), GATE)

    def test_each_program_is_packed(self) -> None:
        names = release.program_names(Repository())
        self.assertEqual(names[:1], ["piql"])
        for name in names:
            self.assertTrue((TOP / "crates" / name / "src/main.rt").exists(), name)

    def test_no_proved_build_gives_none(self) -> None:
        (self.folder / "crates.txt").write_text("piql:\npiql_file:\n")
        (self.folder / "crates/piql/out").mkdir(parents=True)
        with self.assertRaises(release.NoRelease):
            release.proved_programs(self.folder)


@unittest.skipUnless(PIQL, "crates/piql is not built")
class RunTest(unittest.TestCase):
    """Over the engine."""

    def setUp(self) -> None:
        assert PIQL is not None
        self.release = Unpacked(self, {"piql": PIQL})
        self.assertIsNone(shutil.which("rt", path=os.pathsep.join(PLACES)))

    def test_the_first_example_of_the_readme_runs(self) -> None:
        wanted = BLOCK.search((self.release.top / "README.md").read_text())
        assert wanted is not None
        run = self.release.run("bin/piql", "run", "examples/first.piql")
        self.assertEqual((run.stdout.decode(), run.stderr, run.returncode), (wanted[1], b"", 0))
        block = next(blocks(TOP / "README.md", "sh"))
        how = {"cwd": self.release.tar.parent, "env": {"PATH": os.pathsep.join(PLACES)}, "capture_output": True}
        typed = subprocess.run(["sh", "-e", "-c", block.text], text=True, **how)
        shown = f"{self.release.tar.name}: OK\n{wanted[1]}"
        self.assertEqual((typed.stdout, typed.returncode), (shown, 0), typed.stderr)
        piped = self.release.run("bin/piql", "run", script=(self.release.top / "examples/first.piql").read_bytes())
        self.assertEqual(piped.stdout, run.stdout)

    def test_an_answer_is_told(self) -> None:
        run = self.release.run("bin/tell", "examples/first.piql")
        self.assertTrue(run.stdout.endswith(b"\n6 statements, 0 refused\n"), run)

    def test_the_package_runs_it(self) -> None:
        program = "import piql; print(piql.connect(':memory:').execute('SHOW').fetchall())"
        words = ["-c", f"import sys; sys.path.insert(0, 'drivers/python'); {program}"]
        run = subprocess.run([sys.executable, *words], cwd=self.release.top, capture_output=True, env={})
        self.assertEqual((run.stdout, run.stderr), (b"[]\n", b""))


if __name__ == "__main__":
    unittest.main()
