"""Reports are read as docs/FORMATS.md writes them."""

import unittest

import helpers  # noqa: F401 - it finds the package
from piql.reports import (
    DamageLine,
    DefinitionLine,
    IndexLine,
    OpeningLine,
    QueryLine,
    Report,
    Work,
    cut_lines,
    read_line,
    read_report,
    read_reports,
    read_values,
)

LINES = [
    ("open defs 3 bound 2 257 used 2 3", OpeningLine(3, Work(2, 257), Work(2, 3))),
    ("query q whole bound 1 1", QueryLine("q", "whole", Work(1, 1))),
    ("query feed stop 2 bound 104 403", QueryLine("feed", "stop 2", Work(104, 403))),
    ("index thoughts 1 (owner, stamp DESC)", IndexLine("thoughts", 1, ("owner", "stamp DESC"))),
    ("def 2 PREPARE q AS SELECT t.a FROM t AS t;", DefinitionLine(2, "PREPARE q AS SELECT t.a FROM t AS t;")),
    ("damaged 0200ff", DamageLine("0200ff")),
    ("no line of a report", None),
]
VALUES = [
    ("42", (42,)),
    ("-9223372036854775808, true, false, NULL", (-(2**63), True, False, None)),
    ("'it''s', ''", ("it's", "")),
    ("'a, b', 1", ("a, b", 1)),
    ("'line\nfeed', 'NULL', '7'", ("line\nfeed", "NULL", "7")),
]
ROWS = "row 10, 'oslo'\nrow 11, 'li\n7 ok rows 1 bound 1 1 used 1 1\nma'\n"
RUN = ROWS + "17 ok rows 2 next AQ-_ bound 104 403 used 6 9\n"


class ReportTest(unittest.TestCase):
    """Each kind of line, each kind of value, and where a report ends."""

    def test_lines(self) -> None:
        for text, wanted in LINES:
            with self.subTest(text):
                self.assertEqual(read_line(text), wanted)

    def test_values(self) -> None:
        for text, wanted in VALUES:
            with self.subTest(text):
                self.assertEqual(read_values(text), wanted)

    def test_ends(self) -> None:
        made = read_report("5 ok bound 6 4 used 6 1\n")
        self.assertEqual((made.end.number, made.end.refusal, made.end.rows), (5, (), None))
        self.assertEqual((made.end.bound, made.end.used), (Work(6, 4), Work(6, 1)))
        refused = read_report("70 refused E507 subs 1 2 bound 7 4 used 3 3\n")
        self.assertEqual(refused.end.refusal, ("E507", "subs", "1", "2"))
        empty = read_report("5 ok rows 0 bound 1 1 used 1 0\n")
        self.assertEqual((empty.end.rows, empty.rows), (0, []))

    def test_a_text_that_looks_like_an_end(self) -> None:
        report = read_report(RUN)
        self.assertEqual(report.rows, [(10, "oslo"), (11, "li\n7 ok rows 1 bound 1 1 used 1 1\nma")])
        self.assertEqual((report.end.number, report.end.cursor), (17, "AQ-_"))

    def test_a_run(self) -> None:
        found = list(read_reports("open defs 0 bound 2 257 used 2 0\n" + RUN + "damaged 02\n"))
        self.assertEqual([type(it) for it in found], [OpeningLine, Report, DamageLine])

    def test_cut_lines(self) -> None:
        self.assertEqual(list(cut_lines("a\nrow 'x\ny'\nb")), ["a", "row 'x\ny'", "b"])

    def test_another_number_of_rows(self) -> None:
        for rows in ("row 'a\nrow b'\n", "row 'a\n'\n", "row 1\nrow 2\nrow 3\n", "row 1\n"):
            with self.subTest(rows), self.assertRaises(ValueError):
                read_report(f"{rows}9 ok rows 2 bound 1 1 used 1 1\n")
        with self.assertRaises(ValueError):
            read_report("9 ok rows 1 bound 1 1 used 1 1\n")

    def test_no_report(self) -> None:
        with self.assertRaises(ValueError):
            read_report("open defs 0 bound 2 257 used 2 0\n")
