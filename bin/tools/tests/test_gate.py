"""Tests of the test command: how its parts are counted, whatever goes wrong in them."""

import contextlib
import io
import pathlib
import tempfile
import unittest
from unittest import mock

from tools import gate
from tools.gate import Outcome

GOOD = "import unittest\nclass A(unittest.TestCase):\n    def test_a(self):\n        pass\n"
BAD = GOOD.replace("pass", "self.fail()")
SKIPPED = GOOD.replace("    def", "    @unittest.skip('no such program')\n    def")


class GateTest(unittest.TestCase):
    def setUp(self) -> None:
        folder = tempfile.TemporaryDirectory()
        self.addCleanup(folder.cleanup)
        self.top = pathlib.Path(folder.name)
        changed = mock.patch.object(gate, "TOP", self.top)
        changed.start()
        self.addCleanup(changed.stop)

    def write(self, name: str, text: str) -> None:
        path = self.top / name
        path.parent.mkdir(parents=True, exist_ok=True)
        path.write_text(text)

    def told(self, call, *given) -> tuple[Outcome, str]:
        said = io.StringIO()
        with contextlib.redirect_stdout(said):
            outcome = call(*given)
        return outcome, said.getvalue()

    def test_the_gates_last_count_is_its_outcome(self) -> None:
        cases = [
            ("echo a; echo 3 passed, 0 failed", Outcome(3, 0)),
            ("echo 3 passed, 2 failed; exit 1", Outcome(3, 2)),
            ("echo 3 passed, 0 failed; exit 1", Outcome(3, 1)),
            ("echo nothing", Outcome(0, 1)),
            ("exit 2", Outcome(0, 1)),
        ]
        for script, outcome in cases:
            self.assertEqual(self.told(gate.run_gate, ["sh", "-c", script])[0], outcome, script)
        self.assertEqual(self.told(gate.run_gate, ["./no-such-program"])[0], Outcome(0, 1))

    def test_each_module_of_tests_is_run(self) -> None:
        self.write("bin/tools/tests/test_a.py", GOOD)
        self.write("drivers/python/tests/test_b.py", BAD)
        self.write("drivers/python/tests/test_c.py", GOOD)
        self.write("site/tests/test_d.py", SKIPPED)
        self.write("crates/low/tests/test_e.py", BAD)
        outcome, said = self.told(gate.run_tools)
        self.assertEqual(outcome, Outcome(2, 1))
        self.assertIn("test_b", said)
        self.assertIn("no such program", said)
        self.assertIn("trials: skipped", said)
        for line in ("bin/tools/tests/test_a.py: 1 passed, 0 failed", "drivers/python/tests/test_b.py: 0 passed, 1 failed"):
            self.assertIn(line, said.split("\n"))

    def test_modules_run_side_by_side(self) -> None:
        wait = "import pathlib, time\nHERE = pathlib.Path(__file__).parent\n(HERE / '{own}').touch()\n"
        wait += "end = time.monotonic() + 30\nwhile not (HERE / '{other}').exists():\n    time.sleep(0.01)\n"
        wait += "    assert time.monotonic() < end\n"
        self.write("bin/tests/test_a.py", wait.format(own="a", other="b") + GOOD)
        self.write("bin/tests/test_b.py", wait.format(own="b", other="a") + GOOD)
        with mock.patch.object(gate.os, "cpu_count", return_value=2):
            self.assertEqual(self.told(gate.run_tools)[0], Outcome(2, 0))

    def test_what_cannot_be_read_fails(self) -> None:
        self.write("bin/tests/test_a.py", "import no_such_module\n")
        self.write("trials/tests/test_b.py", "import os\nos._exit(0)\n")
        self.assertEqual(self.told(gate.run_tools)[0], Outcome(0, 2))

    def test_what_does_not_end_is_stopped(self) -> None:
        self.write("bin/tests/test_a.py", "import time\ntime.sleep(60)\n")
        with mock.patch.object(gate, "SECONDS", 1):
            self.assertEqual(self.told(gate.run_tools)[0], Outcome(0, 1))

    def test_both_are_summed(self) -> None:
        self.write("bin/tests/test_a.py", GOOD)
        cases = [(Outcome(3, 0), 0, "4 passed, 0 failed"), (Outcome(1, 2), 1, "2 passed, 2 failed")]
        for outcome, status, last in cases:
            with mock.patch.object(gate, "run_gate", return_value=outcome):
                ended, said = self.told(gate.main, [])
            self.assertEqual((ended, said.split("\n")[-2]), (status, last))

    def test_no_flaw_of_the_tools_hides_the_gate(self) -> None:
        flawed = mock.patch.object(gate, "modules", side_effect=ValueError("flaw"))
        with flawed, mock.patch.object(gate, "run_gate", return_value=Outcome(3, 0)):
            status, said = self.told(gate.main, [])
        self.assertEqual((status, said.split("\n")[-2]), (1, "3 passed, 1 failed"))


if __name__ == "__main__":
    unittest.main()
