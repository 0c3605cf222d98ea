"""Tests of the frame of the commands: their help, and an end where nobody reads."""

import subprocess
import sys
import unittest

from tools.repository import TOP
from tools.statuses import WRITE_FAULT

# Of each command that has its docstring as help, how this begins.
HELPED = {
    "examples": "Runs the scripts",
    "gate-cost": "Tells what",
    "layers": "Writes the picture",
    "mutants": "Tries the wrong bodies",
    "names": "Looks up",
    "numbers": "Compares the numbers",
    "test": "The gate",
}
FRAME = "from tools import command; command.run(lambda words: print('x' * 100_000) or 0)"


class CommandTest(unittest.TestCase):
    def test_help_starts_nothing(self) -> None:
        for name, begin in HELPED.items():
            run = subprocess.run([TOP / "bin" / name, "--help"], capture_output=True, text=True)
            self.assertEqual((run.stdout[: len(begin)], run.returncode, run.stderr), (begin, 0, ""), name)

    def test_a_reader_who_has_gone_gets_no_traceback(self) -> None:
        words = [sys.executable, "-B", "-c", FRAME]
        with subprocess.Popen(words, cwd=TOP / "bin", stdout=subprocess.PIPE, stderr=subprocess.PIPE) as run:
            assert run.stdout is not None and run.stderr is not None
            run.stdout.close()
            self.assertEqual(run.stderr.read(), b"")
            self.assertEqual(run.wait(), WRITE_FAULT)


if __name__ == "__main__":
    unittest.main()
