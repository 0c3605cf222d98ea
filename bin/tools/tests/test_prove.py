"""Tests of bin/prove, over a toolchain that only does what the real one would."""

import os
import pathlib
import shutil
import subprocess
import unittest

from tools.programs import proved_build
from tools.repository import TOP, Repository
from tools.tests.copies import new_folder

# It builds where it has the crate, what that stands on and nothing else, and says so.
BUILT = """
[ "$*" = ci ] && [ "$(ls crates)" = "low
one" ] && [ ! -e crates/one/must-fail ] && [ -e crates/one/stdin ] && [ "$(cat crates.txt)" = "low: itoa
one: low" ] || exit 1
mkdir crates/one/out && echo new >crates/one/out/one && chmod 755 crates/one/out/one && echo '1 passed, 0 failed'
"""
FAILED = "echo 'rt: one NOT PROVED'; mkdir crates/one/out; echo old >crates/one/out/one; exit 1\n"
NOT_BUILT = "echo '1 passed, 0 failed'\n"


class ProveTest(unittest.TestCase):
    def setUp(self) -> None:
        self.top = new_folder(self)
        ignored = shutil.ignore_patterns("tests", "__pycache__")
        shutil.copytree(TOP / "bin", self.top / "bin", ignore=ignored)
        shutil.copytree(TOP / "drivers", self.top / "drivers", ignore=ignored, symlinks=True)
        (self.top / "crates.txt").write_text("low: itoa\nother: low\none: low\n")
        (self.top / "HANDLES").touch()
        for name in ("one/src/main.rt", "one/stdin", "one/must-fail/wrong.edit", "one/out/stdout", "low/src/lib.rt", "other/src/lib.rt"):
            path = self.top / "crates" / name
            path.parent.mkdir(parents=True, exist_ok=True)
            path.touch()

    def program(self) -> pathlib.Path:
        return self.top / "crates/one/out/one"

    def prove(self, rt: str, *words: str) -> subprocess.CompletedProcess[str]:
        tool = self.top / "rt"
        tool.write_text(f"#!/bin/sh\n{rt}")
        tool.chmod(0o755)
        path = os.pathsep.join([str(self.top), os.environ["PATH"]])
        how = {"capture_output": True, "text": True, "env": {**os.environ, "PATH": path}}
        return subprocess.run([self.top / "bin/prove", *words], **how)

    def test_the_program_is_taken_from_a_copy_that_has_its_crates_alone(self) -> None:
        run = self.prove(BUILT, "one")
        self.assertEqual(run.returncode, 0, run.stderr)
        self.assertTrue(run.stderr.endswith("prove: one is proved and built: crates/one/out/one\n"))
        self.assertEqual(self.program().read_text(), "new\n")
        self.assertEqual(proved_build(Repository(self.top), "one"), self.program())

    def test_a_source_that_is_changed_meanwhile_is_newer_than_the_build(self) -> None:
        self.assertEqual(self.prove(f"sleep 0.1; touch {self.top}/crates/low/src/lib.rt\n{BUILT}", "one").returncode, 0)
        self.assertIsNone(proved_build(Repository(self.top), "one"))

    def test_what_is_not_proved_is_not_built(self) -> None:
        for rt in (FAILED, NOT_BUILT):
            run = self.prove(rt, "one")
            self.assertEqual(run.returncode, 70)
            self.assertIn("prove: the build failed, see crates/one/out/one.log", run.stderr)
            self.assertFalse(self.program().exists())
        self.prove(FAILED, "one")
        self.assertEqual(self.program().with_suffix(".log").read_text(), "rt: one NOT PROVED\n")

    def test_a_large_crate_that_most_wait_for_is_proved_first_and_others_beside_it(self) -> None:
        (self.top / "crates.txt").write_text("low:\nside:\nmid: low\none: mid side\n")
        (self.top / "crates/low/src/lib.rt").write_bytes(bytes(100_000))
        for name in ("side", "mid"):
            (self.top / "crates" / name / "src").mkdir(parents=True)
        noted = f'echo "${{RT_JOBS:-all}} $*" >>{self.top}/runs\n'
        built = "[ $# = 1 ] || exit 0\nmkdir crates/one/out && echo >crates/one/out/one && chmod 755 crates/one/out/one\n"
        self.assertEqual(self.prove(noted + built, "one").returncode, 0)
        half = max(1, (os.cpu_count() or 1) // 2)
        runs = (self.top / "runs").read_text().splitlines()
        self.assertEqual(sorted(runs), sorted(["all ci low", f"{half} ci side", "all ci"]))
        self.assertLess(runs.index("all ci low"), runs.index("all ci"))

    def test_what_is_no_program_is_told(self) -> None:
        for words in (["low"], ["nothing"], ["../one"], [""], [], ["one", "low"]):
            run = self.prove(BUILT, *words)
            self.assertEqual((run.returncode, run.stdout), (2, ""), words)
            self.assertIn("is no program; bin/prove --help", run.stderr)


if __name__ == "__main__":
    unittest.main()
