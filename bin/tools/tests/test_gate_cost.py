"""Tests of what is told of the gate's processes."""

import os
import pathlib
import subprocess
import sys
import tempfile
import unittest

from tools import gate_cost
from tools.gate_cost import Job
from tools.processes import Process
from tools.repository import Repository


def process(words: str, folder: str = "/top/crates/low", number: int = 2, parent: int = 1) -> Process:
    return Process(number, 0, parent, tuple(words.split()), folder, 1.0, 0.5)


class JobTest(unittest.TestCase):
    def test_each_process_has_its_job(self) -> None:
        rattle = "/kit/bin/rattle"
        cases = [
            (process(f"{rattle} build --crate-name low src/lib.rt"), Job("low", "proof")),
            (process(f"{rattle} check --crate-name low src/main.rt"), Job("low", "proof")),
            (process(f"{rattle} build --crate-name low src/lib.rt --test"), Job("low", "tests")),
            (process(f"{rattle} check --crate-name low", "/tmp/rt-edit-x1"), Job("low", "edits")),
            (process(f"{rattle} build --crate-name low --crate-checked f"), Job("low", "builds")),
            (process("/kit/bin/rattle-link -o out/low out/low.o"), Job("low", "builds")),
            (process("sh -c ulimit /tmp/rt-run-x1/bin/low", "/tmp/rt-run-x1/data"), Job("low", "runs")),
            (process("/kit/bin/rattle-test --seconds 60 /tmp/rt-run-x1/bin/low_tests"), Job("low", "runs")),
            (process("python3 /usr/bin/rt ci", "/top"), None),
        ]
        for one, job in cases:
            self.assertEqual(gate_cost.job_of(one), job, one.words)

    def test_a_job_has_the_seconds_of_all_below_it(self) -> None:
        sampler = gate_cost.Sampler(1)
        top = process("python3 rt ci", number=1, parent=0)
        job = process("/kit/bin/rattle check --crate-name low")
        child = process("/kit/bin/rattle check --crate-name low", number=3, parent=2)
        sampler.walk(top, {1: [job], 2: [child]})
        sampler.walk(top, {1: [job]})
        self.assertEqual(sampler.seconds(), {Job("low", "proof"): 3.0})


    def test_the_whole_has_what_was_not_seen(self) -> None:
        sampler = gate_cost.Sampler(os.getpid())
        words = [sys.executable, "-c", "while __import__('time').process_time() < 0.3: pass"]
        subprocess.run(words, check=True)
        self.assertTrue(sampler.look())
        self.assertEqual(sampler.seconds(), {})
        self.assertGreaterEqual(sampler.whole, sampler.own + 0.25)


class TableTest(unittest.TestCase):
    def test_sums_stand_last(self) -> None:
        lines = gate_cost.table({Job("low", "proof"): 1.0, Job("high", "proof"): 2.0, Job("high", "runs"): 0.5})
        self.assertEqual([line.split() for line in lines[1:]], [
            ["high", "2.0", "0.5", "2.5"],
            ["low", "1.0", "1.0"],
            ["all", "3.0", "0.0", "0.0", "0.0", "0.5", "3.5"],
        ])

    def test_the_longest_chain_ends_in_what_waits_longest(self) -> None:
        with tempfile.TemporaryDirectory() as folder:
            pathlib.Path(folder, "crates.txt").write_text("low:\nside: low\nhigh: low side\n")
            repository = Repository(pathlib.Path(folder))
        seconds = {Job("low", "proof"): 5.0, Job("side", "proof"): 2.0, Job("high", "proof"): 1.0}
        self.assertEqual(gate_cost.longest_chain(repository, seconds), (8.0, ["low", "side", "high"]))
        seconds[Job("low", "edits")] = 9.0
        self.assertEqual(gate_cost.longest_chain(repository, seconds), (14.0, ["low"]))


if __name__ == "__main__":
    unittest.main()
