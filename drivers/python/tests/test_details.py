"""What a message says of a refusal beyond its code: which key, which column, how many values, in names alone."""

import unittest

from helpers import piql
from pipes import PipeCase
from piql.details import detail_of
from piql.errors import refused
from piql.refusals import refusal_of, rules
from piql.reports import DefinitionLine
from piql.schema import read_schema
from piql.scripts import Place

TEXTS = [
    "CREATE TABLE projects (name TEXT(20), PRIMARY KEY (name));",
    "CREATE TABLE issues (project TEXT(20), number INT, score INT NULL, PRIMARY KEY (project, number),"
    " CARDINALITY LIMIT 9 (score), CARDINALITY LIMIT 50 (project, score), FOREIGN KEY (project) REFERENCES projects);",
    "PREPARE later AS SELECT i.score FROM issues AS i WHERE i.project = [1] AND i.number = [2];",
    "CREATE COUNTER open_of OF issues (project);",
    "ALTER TABLE issues ADD COLUMN mark INT DEFAULT 0;",
]
SCHEMA = read_schema([DefinitionLine(number, text) for number, text in enumerate(TEXTS, 1)])
INSERT = "INSERT INTO issues VALUES ('secret', 987, 1, 2)"
LISTED = "insert into Issues (Project, score) VALUES ('secret', 987)"
KEYED = "if = 1 AND batch = 2"
CHANGE = "UPDATE issues SET score ADD 987 WHERE project = 'secret' AND number = 987"
UNMET = "Condition %d doesn't hold of it: "
# The fields of a refusal, its statement, what is told, and of which table and columns.
DETAILS = [
    (("E201", "issues"), "CREATE TABLE issues (a INT, PRIMARY KEY (a))", "A table has it.", None, ()),
    (("E201", "later"), "CREATE TABLE later (a INT, PRIMARY KEY (a))", "A query has it.", None, ()),
    (("E201", "open_of"), "PREPARE open_of AS ..", "A counter has it.", None, ()),
    (("E402", "0"), "RUN later", "2 values are wanted, and 0 given.", None, ()),
    (("E402", "0"), "RUN later ('secret', 7, 8)", "2 values are wanted, and 3 given.", None, ()),
    (("E402", "0"), "READ open_of ()", "1 value is wanted, and 0 given.", None, ()),
    (("E402", "2"), "RUN later ('secret', '987')", "It is value 2.", None, ()),
    (("E501", "issues", "score"), INSERT, "score is INT NULL.", "issues", ("score",)),
    (("E501", "projects", "name"), INSERT, "name is TEXT(20), and takes no NULL.", "projects", ("name",)),
    (("E502", "issues"), INSERT, "4 values are wanted: project, number, score, mark.", "issues", ()),
    (("E502", "issues"), LISTED, "It lacks number.", "issues", ()),
    (
        ("E502", "issues"),
        "UPDATE issues SET score = 987 WHERE project = 'secret' AND score = 1",
        "The key of issues is (project, number), and nothing else stands behind WHERE nor any of it behind SET.",
        "issues",
        ("project", "number"),
    ),
    (
        ("E502", "issues"),
        "DELETE FROM issues WHERE project = 'secret'",
        "The key of issues is (project, number), and nothing else stands behind WHERE.",
        "issues",
        ("project", "number"),
    ),
    (("E505", "issues", "1"), INSERT, "It is (project) of issues, which refers to projects.", "issues", ("project",)),
    (("E506", "issues", "1"), INSERT, "It is (project) of issues, which refers to projects.", "issues", ("project",)),
    (
        ("E507", "issues", "2", "50"),
        INSERT,
        "At most 50 rows of issues have the same (project, score).",
        "issues",
        ("project", "score"),
    ),
    (("E511", "issues", "2"), f"{CHANGE} IF mark = 987 AND score IS NULL", f"{UNMET % 2}score IS NULL.", "issues", ("score",)),
    (("E511", "issues", "1"), f"{CHANGE} if MARK<>'secret';", f"{UNMET % 1}MARK <> ?.", "issues", ("mark",)),
    (("E511", "if", "1"), f"DELETE FROM if WHERE {KEYED} IF if > 987", f"{UNMET % 1}if > ?.", "if", ("if",)),
    (("E511", "issues", "3"), f"{CHANGE} IF mark = 987", "", None, ()),
    (("E302", "2"), f"{CHANGE} IF mark = 987 AND score < ? AND mark = 1", "It is score < ?.", None, ()),
    (("E302", "1"), "SELECT * FROM issues AS i WHERE i.mark = 'secret' ORDER BY i.mark", "It is i.mark = ?.", None, ()),
    (("E302", "1"), "SELECT * FROM t WHERE t.a >= [1: b] LIMIT 1", "It is t.a >= ?.", None, ()),
    (("E302", "2"), "SELECT * FROM t WHERE a = TRUE AND t.a = t.b", "It is t.a = t.b.", None, ()),
    (("E514", "issues", "score"), CHANGE, "score is INT NULL.", "issues", ("score",)),
    (("E505", "issues", "2"), INSERT, "", None, ()),
    (("E505", "nothing", "1"), INSERT, "", None, ()),
    (("E503", "issues"), INSERT, "", None, ()),
]
# A statement, the token at which it spells nothing, and words of its way out.
MISREAD = [
    ("select * form users", "form", "`FROM` behind the columns"),
    ("SELECT a FROM t WHERE b = 1 ORDER BY a LIMIT ?", "?", "written in the query"),
    ("SELECT a FROM t WHERE b = 1 ORDER BY a PAGINATE ?", "?", "written in the query"),
    ("SELECT a FROM t WHERE c = 1 AND (a = ? OR b = ?)", "(", "one query with a parameter"),
    ("SELECT a FROM t WHERE (a = ? AND b = ?)", "(", "without parentheses"),
    ("SELECT a FROM t WHERE b = 99999999999999999999", "99999999999999999999", "64 bits"),
    ("INSERT INTO t VALUES (-9223372036854775809)", "-9223372036854775809", "64 bits"),
    ("SELECT a FROM t WHERE b LIKE ?", "LIKE", "for what a text begins with a range"),
    ("SELECT a FROM t WHERE b LIKE [1]", "LIKE", "for what a text begins with a range"),
    ("SELECT x.a FROM t AS x JOIN u AS y WHERE x.a <> y.b", "y", "compared by `=` alone"),
    ("SELECT x.a FROM t AS x JOIN u AS y WHERE x.a < b", "b", "compared by `=` alone"),
    ("SELEC * FROM t", "SELEC", "READ, SELECT or SHOW; LANGUAGE.md has"),
    ("DROP TABLE t", "DROP", "piql rebuild"),
    ("DROP QUERY q", "DROP", "a prepared query stays"),
    ("ALTER TABLE t ADD CARDINALITY LIMIT 1 (a)", "CARDINALITY", "come with CREATE TABLE"),
    ("UPDATE t SET v = 9 WHERE id = 1 IF w = NULL", "NULL", "`IS NULL` for the first"),
    ("DELETE FROM t WHERE id = 1 IF w < NULL", "NULL", "`IS NULL` for the first"),
    ("UPDATE t SET v = v + 1 WHERE id = 1", "v +", "`n ADD 1`"),
    ("UPDATE t SET v ADD 'a' WHERE id = 1", "'a'", "a number of 64 bits behind ADD"),
    ("UPDATE t SET v ADD ? WHERE id = 1", "?", "a number of 64 bits behind ADD"),
    ("UPDATE t SET v ADD w WHERE id = 1", "w", "a number of 64 bits behind ADD"),
    ("UPDATE t SET v = w WHERE id = 1", "w W", "with values alone"),
    ("UPDATE t SET v = 9 WHERE id = 1 IF v = 8 AND w <= u", "u", "with values alone"),
    ("UPDATE t SET v = 9 WHERE id = 1 IF v = 8 OR v = 7", "OR", "one write for each value"),
    ("UPDATE t SET v = 9 IF v = 8 WHERE id = 1", "IF", "behind the whole key"),
    ("DELETE FROM t WHERE id = 1 IF (v = 8)", "(", "behind the whole key"),
    ("UPDATE t SET v = 9 WHERE id = 1 IF EXISTS;", ";", "E504 says"),
    ("INSERT INTO t VALUES (1, 2) IF NOT EXISTS", "IF", "E503 says"),
    ("SELECT 1", "1", "columns of a table"),
    ("SELECT a FROM t HAVING a = 1", "HAVING", "a column that has the number"),
    # Where a statement ends too soon, with its `;` and without.
    ("READ c;", ";", "the form is `READ c"),
    ("READ c", "", "the form is `READ c"),
    ("SELECT a FROM t WHERE active", "", "a column, a comparison and a value"),
    ("SELECT FROM t", "FROM", "the form is `SELECT x.a"),
]


class DetailTest(unittest.TestCase):
    """Details of refusals, by a schema that is known."""

    def test_details(self) -> None:
        for fields, statement, told, table, key in DETAILS:
            with self.subTest(fields=fields, statement=statement):
                detail = detail_of(fields, statement, SCHEMA)
                self.assertEqual(detail[:4], (told, table, key, ()))
                error = refused(refusal_of(fields, statement)._replace(**detail._asdict()))
                self.assertEqual((error.table, error.key), (table, key))
                self.assertIn(told, str(error))
                for value in ("secret", "987"):
                    self.assertNotIn(value, str(error))

    def test_ways_out(self) -> None:
        for statement, token, words in MISREAD:
            with self.subTest(statement):
                at = statement.index(token) if token in ("(", "LIKE") else statement.rindex(token)
                refusal = refusal_of(("E104", str(at)), statement, Place(1, at + 1))
                self.assertIn(words, refusal.way_out)

    def test_a_name_that_is_null(self) -> None:
        self.assertIn("`IS NULL` in place", refusal_of(("E203", "null"), "..").way_out)
        self.assertIn("look at `SHOW`", refusal_of(("E203", "nul"), "..").way_out)
        self.assertIn("one TEXT column", refusal_of(("E206", "limit_columns"), "..").way_out)

    def test_no_word_of_the_document_stands_for_a_field(self) -> None:
        for code, rule in rules().items():
            refusal = refusal_of((code, *(f"f{i}" for i in range(len(rule.fields)))), "..")
            for text in (refusal.headline, refusal.cause, refusal.way_out):
                with self.subTest(code):
                    self.assertNotRegex(text, r"\b(ALIAS|NAME|NUMBER)\b|\]\(|\*\*")


class MessageTest(PipeCase):
    """The exception of a refusal, over a stand-in whose definitions are known."""

    lie = "%d refused E505 issues 1 bound 2 1 used 1 0\n"

    def test_a_foreign_key(self) -> None:
        connection = self.open()
        connection._schema = SCHEMA
        with self.assertRaises(piql.IntegrityError) as caught:
            connection.execute("INSERT INTO issues VALUES (?, ?, ?, ?)", ("secret", 987, 1, 2))
        error = caught.exception
        self.assertEqual((error.table, error.key, error.fields["number"]), ("issues", ("project",), "1"))
        self.assertIn("isn't there. It is (project) of issues, which refers to projects. Way out:", str(error))
