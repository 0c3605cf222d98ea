"""Tests of running a program: what it reads, what is told of its end, and what is told at a terminal."""

import contextlib
import os
import pty
import signal
import sqlite3
import subprocess
import time
import unittest

from tools.statuses import MEANINGS
from tools.tests.copies import Copy, built

PIQL = built("piql")
OPENING = b"open defs 0 bound 2 257 used 2 0\n"


class EndsTest(unittest.TestCase):
    """Over programs that only end."""

    def setUp(self) -> None:
        self.copy = Copy(self)

    def test_each_status_is_passed_on_and_told(self) -> None:
        self.copy.put_script("piql", "read -r status\nexit $status\n")
        for status in range(9):
            run = self.copy.run("piql", "run", script=b"%d\n" % status)
            self.assertEqual(run.returncode, status)
            wanted = f"piql: ended with status {status}: {MEANINGS[status]}\n" if status > 1 else ""
            self.assertEqual(run.stderr.decode(), wanted)

    def test_a_signal_is_told(self) -> None:
        self.copy.put_script("piql", "kill -SEGV $$\n")
        run = self.copy.run("piql", "run")
        self.assertEqual((run.returncode, run.stderr), (128 + 11, b"piql: stopped by signal 11\n"))

    def test_several_scripts_are_headed_and_each_is_run(self) -> None:
        self.copy.put_script("piql", 'echo "$@"; cat; exit 1\n')
        (self.copy.top / "a").write_text("one\n")
        (self.copy.top / "b").write_text("two\n")
        run = self.copy.run("piql", "check", "a", "b")
        self.assertEqual(run.stdout, b"== a\ncheck\none\n== b\ncheck\ntwo\n")
        self.assertEqual(run.returncode, 1)
        self.assertEqual(self.copy.run("piql", "run", "a").stdout, b"run\none\n")

    def test_over_a_file_the_first_bad_end_is_the_last(self) -> None:
        self.copy.put_script("piql_file", 'echo "$2"; read -r status; exit $status\n')
        for name, status in (("a", 1), ("b", 6), ("c", 0)):
            (self.copy.top / name).write_text(f"{status}\n")
        run = self.copy.run("piql_file", "new.db", "run", "a", "b", "c")
        self.assertEqual(run.stdout, b"== a\nrun\n== b\nrun\n")
        self.assertEqual(run.returncode, 6)

    def test_why_a_file_can_not_be_used_is_told_first(self) -> None:
        self.copy.put_script("piql_file", "exit 5\n")
        store = self.copy.top / "store.db"
        with contextlib.closing(sqlite3.connect(store)) as other:
            other.execute("CREATE TABLE t (a)")
            other.execute("BEGIN EXCLUSIVE")
            run = self.copy.run("piql_file", "store.db", "run")
        cause = "another process has store.db open (a run, a server, or sqlite3); piql-serve hands one file to many"
        self.assertEqual(run.stderr.decode(), f"piql_file: {cause}\npiql_file: ended with status 5: {MEANINGS[5]}\n")

    def test_wrong_words_start_nothing(self) -> None:
        self.copy.put_script("piql", "echo started\n")
        for words in ([], ["walk"], ["fill", "0"], ["run", "nowhere"]):
            run = self.copy.run("piql", *words)
            self.assertEqual((run.returncode, run.stdout), (2, b""))
            self.assertIn(b"usage:\n  bin/piql run ", run.stderr)
        run = self.copy.run("piql_file", ".", "run")
        self.assertEqual((run.returncode, run.stderr), (5, b"piql_file: . is a folder, and no file\n"))

    def test_help_and_version_start_nothing(self) -> None:
        self.copy.put_script("piql", "echo started\n")
        self.assertTrue(self.copy.run("piql", "--help").stdout.startswith(b"usage:\n"))
        version = self.copy.run("piql", "--version").stdout.decode()
        self.assertRegex(version, r"^piql \d+\.\d+\.\d+ \(language \d+, file format \d+, driver \d+\), proved\n$")
        self.assertIn(", not proved\n", self.copy.run("piql_file", "--version").stdout.decode())

    def test_no_program_is_told(self) -> None:
        run = self.copy.run("piql", "run")
        self.assertEqual((run.returncode, run.stderr), (70, b"piql: the release has no program of this name\n"))

    def test_a_signal_to_the_command_ends_the_program(self) -> None:
        self.copy.put_script("piql", "echo $$; exec sleep 60\n")
        for given, status in ((signal.SIGTERM, 128 + signal.SIGTERM), (signal.SIGKILL, -signal.SIGKILL)):
            words = [self.copy.top / "bin/piql", "run"]
            with subprocess.Popen(words, stdin=subprocess.PIPE, stdout=subprocess.PIPE, stderr=subprocess.PIPE) as run:
                assert run.stdout is not None
                run.stdout.readline()
                run.send_signal(given)
                # The program has the pipe too: its end comes when both are gone.
                self.assertEqual(run.stdout.read(), b"")
                self.assertEqual(run.wait(), status)


@unittest.skipUnless(PIQL, "crates/piql is not built")
class InputTest(unittest.TestCase):
    """Over the engine."""

    def setUp(self) -> None:
        self.copy = Copy(self)
        assert PIQL is not None
        self.copy.put_program("piql", PIQL)

    def test_a_script_that_arrives_slowly_is_read_to_its_end(self) -> None:
        words = [self.copy.top / "bin/piql", "run"]
        with subprocess.Popen(words, stdin=subprocess.PIPE, stdout=subprocess.PIPE, stderr=subprocess.PIPE) as run:
            assert run.stdin is not None and run.stdout is not None
            run.stdin.write(b"SHOW;\n")
            run.stdin.flush()
            self.assertEqual(run.stdout.readline() + run.stdout.readline(), OPENING + b"1 ok bound 0 0 used 0 0\n")
            time.sleep(4)
            run.stdin.write(b"FOO;\n")
            run.stdin.close()
            self.assertEqual(run.stdout.read(), b"2 refused E104 1 bound 0 0 used 0 0\n")
            self.assertEqual(run.wait(), 1)

    def test_a_terminal_is_told_what_to_do_and_answered(self) -> None:
        ours, theirs = pty.openpty()
        words = [self.copy.top / "bin/piql", "run"]
        with subprocess.Popen(words, stdin=theirs, stdout=subprocess.PIPE, stderr=subprocess.PIPE) as run:
            assert run.stdout is not None and run.stderr is not None
            self.assertIn(b"type statements", run.stderr.readline())
            os.write(ours, b"SHOW;\n")
            self.assertEqual(run.stdout.readline() + run.stdout.readline(), OPENING + b"1 ok bound 0 0 used 0 0\n")
            os.write(ours, b"\x04")
            self.assertEqual(run.wait(), 0)
        os.close(ours)
        os.close(theirs)


if __name__ == "__main__":
    unittest.main()
