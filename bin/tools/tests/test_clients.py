"""Tests of bin/piql_clients: its words, and what clients make of scripts and are told."""

import subprocess
import unittest
from typing import NamedTuple

from tools.tests.copies import Copy, built

PROGRAM = built("piql_clients")
NUMBERS = "CREATE TABLE m (id INT, v INT, PRIMARY KEY (id));"
GROUPS = "CREATE TABLE g (a INT, b INT, PRIMARY KEY (a, b), CARDINALITY LIMIT 1 (a));"
HELD = "CREATE TABLE h (id INT, t INT, PRIMARY KEY (id), CARDINALITY LIMIT 5 (t));"
MADE = "1 ok bound 1 0 used 1 0\n"
TOO_LONG = 16_777_217


class Case(NamedTuple):
    """A script, for how many clients, and what comes of it."""

    name: str
    count: int
    script: str
    lines: str
    status: int


CASES = (
    Case("no statement", 3, "", "", 0),
    Case("no write", 1, NUMBERS, MADE, 0),
    Case(
        "two take one key",
        2,
        NUMBERS + "INSERT INTO m VALUES (1, 7); INSERT INTO m VALUES (1, 8);",
        MADE + "told 2 1 conflict\ntold 1 1 done\n",
        1,
    ),
    Case(
        "a key is held while it is read",
        2,
        NUMBERS + "DELETE FROM m WHERE id = 5; INSERT INTO m VALUES (1, 7); DELETE FROM m WHERE id = 6;"
        "INSERT INTO m VALUES (2, 2); INSERT INTO m VALUES (1, 8);",
        MADE + "told 1 1 refused E504 m\ntold 1 2 refused E504 m\ntold 1 3 busy\ntold 2 1 done\ntold 2 2 done\n",
        1,
    ),
    Case(
        "two writes on their way fill a limit for each other",
        2,
        GROUPS + "INSERT INTO g VALUES (1, 1); INSERT INTO g VALUES (1, 2);",
        MADE + "told 1 1 refused E507 g 1 1\ntold 2 1 refused E507 g 1 1\n",
        1,
    ),
    Case(
        "one after the other the first has room",
        1,
        GROUPS + "INSERT INTO g VALUES (1, 1); INSERT INTO g VALUES (1, 2);",
        MADE + "told 1 1 done\ntold 1 2 refused E507 g 1 1\n",
        1,
    ),
    Case(
        "each has room",
        3,
        HELD + "INSERT INTO h VALUES (1, 1); INSERT INTO h VALUES (2, 1); INSERT INTO h VALUES (3, 1);",
        "index h 1 (t)\n" + MADE + "told 1 1 done\ntold 2 1 done\ntold 3 1 done\n",
        0,
    ),
    Case(
        "what is behind the first write and is none that is accepted is skipped",
        2,
        NUMBERS + "nonsense; INSERT INTO m VALUES (1, 7); CREATE TABLE k (id INT, PRIMARY KEY (id));"
        "INSERT INTO nil VALUES (1); UPDATE m SET v = 8 WHERE id = 1; RUN q (1); INSERT INTO",
        MADE + "2 refused E104 0 bound 0 0 used 0 0\n4 skipped\n5 skipped\n7 skipped\n"
        "8 refused E102 bound 0 0 used 0 0\ntold 2 1 refused E504 m\ntold 1 1 done\n",
        1,
    ),
    Case(
        "a write on a table with a counter is skipped",
        2,
        NUMBERS + "CREATE COUNTER c OF m (v); CREATE TABLE k (id INT, PRIMARY KEY (id)); INSERT INTO m VALUES (1, 7);"
        "INSERT INTO k VALUES (1); UPDATE m SET v = 8 WHERE id = 1; READ c (7);",
        MADE + "2 ok bound 2 1 used 2 0\n3 ok bound 1 0 used 1 0\n4 skipped\n6 skipped\n7 skipped\ntold 1 1 done\n",
        1,
    ),
    Case(
        "a condition is of the row that was read, and holds of the row that was made meanwhile or not",
        2,
        NUMBERS + "BATCH INSERT INTO m VALUES (1, 7); UPDATE m SET v = 8 WHERE id = 1 IF v = 7;"
        "UPDATE m SET v = 9 WHERE id = 1 IF v = 7; BATCH INSERT INTO m VALUES (2, 7);"
        "UPDATE m SET v = 9 WHERE id = 1 IF v = 8; UPDATE m SET v = 6 WHERE id = 1 IF v = 7;",
        MADE + "2 ok bound 2 1 used 2 0\n5 skipped\n"
        "told 2 1 conflict\ntold 1 1 done\ntold 2 2 refused E511 m 1\ntold 1 2 done\n",
        1,
    ),
    Case(
        "a batch and a SELECT are made before the first write, and skipped behind it",
        1,
        NUMBERS + "BATCH INSERT INTO m VALUES (1, 7), INSERT INTO m VALUES (2, 8); SELECT v FROM m WHERE id = 2;"
        "INSERT INTO m VALUES (3, 9); SELECT v FROM m WHERE id = 3; BATCH DELETE FROM m WHERE id = 1;"
        "UPDATE m SET v ADD 1 WHERE id = 1 IF v = 7; UPDATE m SET v ADD 9223372036854775807 WHERE id = 1;",
        MADE + "2 ok bound 6 2 used 6 0\nrow 8\n3 ok rows 1 bound 1 1 used 1 1\n5 skipped\n6 skipped\n"
        "told 1 1 done\ntold 1 2 done\ntold 1 3 refused E514 m v\n",
        1,
    ),
)


def too_long(script: str) -> bytes:
    """The script with as many blanks behind it that it is one byte too long."""
    return script.encode().ljust(TOO_LONG)


class WordsTest(unittest.TestCase):
    """Over a program that only tells its words."""

    def setUp(self) -> None:
        self.copy = Copy(self)
        self.copy.put_script("piql_clients", 'echo "$@"; cat; exit 1\n')

    def test_the_count_and_the_script_are_handed_on(self) -> None:
        run = self.copy.run("piql_clients", "16", script=b"one\n")
        self.assertEqual((run.returncode, run.stdout), (1, b"16\none\n"))
        (self.copy.top / "a").write_text("two\n")
        self.assertEqual(self.copy.run("piql_clients", "2", "a").stdout, b"2\ntwo\n")

    def test_wrong_words_start_nothing(self) -> None:
        for words in ([], ["0"], ["17"], ["02"], ["two"], ["2", "nowhere"], ["2", "a", "b"]):
            run = self.copy.run("piql_clients", *words)
            self.assertEqual((run.returncode, run.stdout), (2, b""))
            self.assertIn(b"usage:\n  bin/piql_clients K ", run.stderr)


@unittest.skipUnless(PROGRAM, "there is no build of piql_clients")
class ClientsTest(unittest.TestCase):
    """Over the program."""

    def run_program(self, count: str, script: bytes) -> subprocess.CompletedProcess[bytes]:
        assert PROGRAM
        return subprocess.run([PROGRAM, count], input=script, capture_output=True)

    def test_each_case(self) -> None:
        for case in CASES:
            with self.subTest(case.name):
                run = self.run_program(str(case.count), case.script.encode())
                self.assertEqual((run.stdout.decode(), run.returncode), (case.lines, case.status))

    def test_other_words_are_no_run(self) -> None:
        for word in ("0", "17", "02", "run"):
            run = self.run_program(word, NUMBERS.encode())
            self.assertEqual((run.stdout, run.returncode), (b"", 2))

    def test_a_script_that_cannot_be_read(self) -> None:
        assert PROGRAM
        with open("/proc/self/mem", "rb") as unreadable:
            run = subprocess.run([PROGRAM, "2"], stdin=unreadable, capture_output=True)
        self.assertEqual((run.stdout, run.returncode), (b"", 3))

    def test_lines_that_cannot_be_written(self) -> None:
        assert PROGRAM
        with open("/dev/full", "wb") as full:
            run = subprocess.run([PROGRAM, "2"], input=NUMBERS.encode(), stdout=full)
        self.assertEqual(run.returncode, 4)

    def test_a_script_that_is_too_long_is_made_as_far_as_it_is_read(self) -> None:
        run = self.run_program("2", too_long(NUMBERS + "INSERT INTO m VALUES (1, 7); INSERT"))
        self.assertEqual((run.stdout.decode(), run.returncode), (MADE + "told 1 1 done\n", 8))

    def test_too_long_goes_before_refused(self) -> None:
        script = NUMBERS + "INSERT INTO m VALUES (1, 7); SHOW; INSERT INTO m VALUES (1, 8);"
        run = self.run_program("2", too_long(script))
        lines = MADE + "3 skipped\ntold 2 1 conflict\ntold 1 1 done\n"
        self.assertEqual((run.stdout.decode(), run.returncode), (lines, 8))

    def test_lines_that_cannot_be_written_go_before_too_long(self) -> None:
        assert PROGRAM
        with open("/dev/full", "wb") as full:
            run = subprocess.run([PROGRAM, "2"], input=too_long(NUMBERS), stdout=full)
        self.assertEqual(run.returncode, 4)


if __name__ == "__main__":
    unittest.main()
