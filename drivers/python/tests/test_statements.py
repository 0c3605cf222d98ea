"""Statements of the driver: values, names of queries, places, refusals and their exceptions."""

import re
import unittest

from helpers import TOP, piql
from piql.errors import class_of, refused
from piql.refusals import refusal_of, rules
from piql.scripts import Place
from piql.statements import Kind, Sent, batch_of, read_statement
from piql.values import quoted

QUOTED = [
    (None, "NULL"),
    (True, "TRUE"),
    (0, "0"),
    (-(2**63), "-9223372036854775808"),
    ("it's", "'it''s'"),
    ("a\0;--\n", "'a\0;--\n'"),
]
SAME = [
    "SELECT x.v FROM m AS x WHERE x.id = ?",
    "select X.V\nfrom m as x -- a comment\nwhere x.id = ?;",
    "SELECT x.v FROM m AS x WHERE x.id=[01: key]",
]
NO_STATEMENT = ["", " ; ", "-- a", "SHOW; SHOW", "INSERT INTO m VALUES ('a", "SELECT a FROM t WHERE a = ? AND b = [1]"]
CODE_ROW = re.compile(r"^\| (E\d\d\d) \| `\w+.*` \| `E\d\d\d([A-Z ]*)` \|", re.MULTILINE)


class StatementTest(unittest.TestCase):
    """What needs no engine."""

    def test_values(self) -> None:
        for value, wanted in QUOTED:
            with self.subTest(value=value):
                self.assertEqual(quoted(value), wanted)
        wrong: list[tuple[object, type[piql.Error]]] = [(2**63, piql.DataError), (1.5, piql.ProgrammingError)]
        for given, error in wrong:
            with self.subTest(value=given), self.assertRaises(error):
                quoted(given)

    def test_one_name_for_all_spellings(self) -> None:
        names = {read_statement(text).name for text in SAME}
        self.assertEqual(len(names), 1)
        self.assertRegex(names.pop(), r"^q_[0-9a-f]{30}$")
        other = read_statement("SELECT x.v FROM m AS x WHERE x.id = ? LIMIT 1")
        self.assertNotEqual(read_statement(SAME[0]).name, other.name)

    def test_the_name_stays(self) -> None:
        # sha256 of "SELECT a FROM t WHERE a = [ 1 ]", so that every version finds what an earlier one has prepared.
        self.assertEqual(read_statement("select a from t where a = ?").name, "q_506410f226e79f62d6905916deb37a")

    def test_what_is_sent(self) -> None:
        statement = read_statement("RUN q (?, '?', ?) -- ?")
        self.assertEqual((statement.kind, statement.name, statement.params), (Kind.RUN, "q", 2))
        self.assertEqual(Sent(statement, "", ("1", "NULL")).data(), b"RUN q (1, '?', NULL);")

    def test_a_default_may_be_a_value(self) -> None:
        statement = read_statement("alter table t add column c text(9) default ?")
        self.assertEqual((statement.kind, statement.params), (Kind.ALTER, 1))
        self.assertTrue(statement.kind.defines)
        self.assertFalse(statement.kind.reads or statement.kind.writes or statement.kind.has_pages)
        self.assertEqual(Sent(statement, "", ("'x'",)).data(), b"alter table t add column c text(9) default 'x';")

    def test_a_read_has_rows_and_no_pages(self) -> None:
        statement = read_statement("read followers (?, 'it''s')")
        self.assertEqual((statement.kind, statement.params), (Kind.READ, 1))
        self.assertTrue(statement.kind.reads and statement.kind.has_rows)
        self.assertFalse(statement.kind.defines or statement.kind.writes or statement.kind.has_pages)
        self.assertEqual(Sent(statement, "", ("'x'",)).data(), b"read followers ('x', 'it''s');")
        self.assertTrue(read_statement("CREATE COUNTER c OF t (a)").kind.defines)

    def test_refused_before_it_is_sent(self) -> None:
        for text in NO_STATEMENT:
            with self.subTest(text), self.assertRaises(piql.ProgrammingError):
                read_statement(text)
        with self.assertRaises(piql.DataError):
            Sent(read_statement("RUN q (?)"), "", (quoted("\ud800"),)).data()
        with self.assertRaises(piql.ProgrammingError) as caught:
            Sent(read_statement(f"RUN q ('{'x' * 65_536}')"), "", ()).data()
        self.assertEqual(caught.exception.number, "E103")

    def test_places(self) -> None:
        statement = read_statement("INSERT INTO m\nVALUES (?, é ?)")
        sent = Sent(statement, "", ("12345", "'é'"))
        places = [(b"INSERT", 0), (b"12345", 22), (b", ", 23), (b"'\xc3", 27), (b");", 28)]
        for text, wanted in places:
            with self.subTest(text):
                self.assertEqual(sent.source_at(sent.data().index(text)), wanted)

    def test_one_place_for_all_values(self) -> None:
        statement = read_statement("INSERT INTO m VALUES (?, ?, ?); -- a").with_one_place()
        sent = Sent(statement, "", ("1, 'a%s', NULL",))
        self.assertEqual(sent.data(), b"INSERT INTO m VALUES (1, 'a%s', NULL);")
        self.assertEqual([sent.source_at(sent.data().index(it)) for it in (b"m V", b"NULL", b")")], [12, 22, 29])
        both = batch_of([sent, Sent(read_statement("DELETE FROM m WHERE id = ?"), "", ("7",))])
        self.assertEqual(both.statement.text, "BATCH INSERT INTO m VALUES (?, ?, ?), DELETE FROM m WHERE id = ?")
        self.assertEqual(both.data(), b"BATCH INSERT INTO m VALUES (1, 'a%s', NULL), DELETE FROM m WHERE id = 7;")
        self.assertEqual([both.source_at(both.data().index(it)) for it in (b"NULL", b"DELETE", b"7")], [28, 38, 63])

    def test_each_refusal_has_a_class(self) -> None:
        formats = (TOP / "docs/FORMATS.md").read_text()
        for code, fields in CODE_ROW.findall(formats):
            with self.subTest(code):
                self.assertIn(code, rules())
                self.assertEqual(len(rules()[code].fields), len(fields.split()))
                refusal = refusal_of((code, *fields.split()), "x", None)
                self.assertTrue(refusal.headline)
                self.assertTrue(issubclass(class_of(refusal), piql.DatabaseError))

    def test_ways_out(self) -> None:
        text = "SELECT a FROM t WHERE a = 1 OR a = 2"
        syntax = refusal_of(("E104", "28"), text, Place(1, 29))
        self.assertIn("run for each value", syntax.way_out)
        for word in ("definitions", "indexes"):
            self.assertIn("rebuild", refusal_of(("E206", word), text).way_out)
        for word in ("relations", "stop", "key", "cardinality", "text"):
            self.assertTrue(refusal_of(("E206", word), text).way_out, word)

    def test_ways_out_by_the_statement(self) -> None:
        unbounded = refusal_of(("E304", "t"), "PREPARE q AS SELECT a FROM t WHERE a <> 1 LIMIT 9").way_out
        self.assertEqual(unbounded, "a BOOL column and an equality")
        without_stop = refusal_of(("E304", "t"), "PREPARE q AS SELECT a FROM t").way_out
        self.assertTrue(without_stop.startswith("LIMIT or PAGINATE; "), without_stop)
        self.assertIn("each column", refusal_of(("E502", "t"), "INSERT INTO t (a) VALUES (1)").way_out)
        self.assertIn("whole key", refusal_of(("E502", "t"), "delete from t where b = 1").way_out)
        for text, at in (("DELETE FROM t WHERE a < 1;", 22), ("DELETE FROM t;", 13), ("UPDATE t SET a = 1;", 18)):
            self.assertIn("for each row", refusal_of(("E104", str(at)), text, Place(1, at + 1)).way_out, text)
        self.assertIn("the form is", refusal_of(("E104", "4"), "RUN 7;", Place(1, 5)).way_out)
        self.assertIn("begin with", refusal_of(("E104", "0"), "HELLO;", Place(1, 1)).way_out)

    def test_the_message(self) -> None:
        error = refused(refusal_of(("E503", "users"), "INSERT ..", None))
        self.assertIsInstance(error, piql.IntegrityError)
        said = "E503 users: a row with this key is there. Way out: UPDATE it, or choose another key."
        self.assertEqual(str(error), said)
        self.assertEqual((error.number, error.fields, error.statement), ("E503", {"table": "users"}, "INSERT .."))
