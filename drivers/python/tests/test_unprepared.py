"""A SELECT that isn't prepared: what of it reaches the engine, and what is told where it can't be answered."""

import random
import unittest

from helpers import piql
from pipes import PipeCase, written
from piql.reports import DefinitionLine, read_report
from piql.schema import read_schema
from piql.scripts import is_one_piece, tokens
from piql.selected import columns_of
from piql.statements import read_statement
from piql.unprepared import prepared, wanted_index

# A SELECT with its values, and what is sent where it isn't prepared.
SENT = [
    (
        "SELECT x.a FROM t AS x WHERE x.b = ? AND x.c>=?;",
        ("b'", -1),
        b"SELECT x.a FROM t AS x WHERE x.b =  'b'''  AND x.c>= -1 ;",
    ),
    ("select a from t where b = [1: who] limit 9", ("[1]",), b"select a from t where b =  '[1]'  limit 9;"),
    ("SELECT a FROM t WHERE b=[2]AND c=[1]", (True, "?"), b"SELECT a FROM t WHERE b= '?' AND c= TRUE ;"),
    ("SELECT a FROM t WHERE b = [1] AND c = [01]", (7,), b"SELECT a FROM t WHERE b =  7  AND c =  7 ;"),
    ("SELECT a FROM t -- [1] ?\nWHERE b = '?[1]%s'", (), b"SELECT a FROM t -- [1] ?\nWHERE b = '?[1]%s';"),
    # Where no parameter may stand no value does: the engine refuses the place, as that of a PREPARE.
    ("SELECT a FROM t WHERE b = ? LIMIT ?", (7, 5), b"SELECT a FROM t WHERE b = [1] LIMIT [2];"),
    ("SELECT a FROM t WHERE ? = b", (7,), b"SELECT a FROM t WHERE [1] = b;"),
    ("SELECT ? FROM t", ("a",), b"SELECT [1] FROM t;"),
    ("SELECT a FROM t WHERE b = -[1]", (7,), b"SELECT a FROM t WHERE b = -[1];"),
    ("SELECT a FROM t WHERE b = [2]", (7, 8), b"SELECT a FROM t WHERE b = [2];"),
    ("SELECT a FROM t WHERE b = [1 who]", (7,), b"SELECT a FROM t WHERE b = [1 who];"),
]
# What is refused before anything is sent, and by which number: NULL, a wrong number of values, a ? within a token.
UNSENT: list[tuple[str, tuple[object, ...], str | None]] = [
    ("SELECT a FROM t WHERE b = ?", (None,), "E402"),
    ("SELECT a FROM t WHERE b = [1] AND c = [2]", (7, None), "E402"),
    ("SELECT a FROM t WHERE b = ?", (), None),
    ("SELECT a FROM t WHERE b = [1]", (1, 2), None),
    ("SELECT a FROM t WHERE b = -?", (1,), None),
]
TEXTS = [
    "CREATE TABLE users (name TEXT(20), town TEXT(30) NULL, PRIMARY KEY (name));",
    "CREATE TABLE posts (id INT, owner TEXT(20), line TEXT(9), PRIMARY KEY (id));",
    "CREATE COUNTER posts_of OF posts (owner);",
]
SCHEMA = read_schema([DefinitionLine(number, text) for number, text in enumerate(TEXTS, 1)])
# A SELECT as it is written, and the columns of its answer.
COLUMNS = [
    ("SELECT * FROM Users", ["name TEXT", "town TEXT"]),
    ("select u.TOWN, u.name from users u where u.name = 'FROM posts'", ["town TEXT", "name TEXT"]),
    ("SELECT town, line FROM posts AS p JOIN users WHERE name = owner", ["town TEXT", "line TEXT"]),
    ("SELECT * FROM posts p, users AS u LIMIT 9;", ["id INT", "owner TEXT", "line TEXT", "name TEXT", "town TEXT"]),
    ("SELECT a.id, b.id FROM posts AS a JOIN posts b ORDER BY a.id PAGINATE 2", ["a.id INT", "b.id INT"]),
]
# A SELECT, the index line of its EXPLAIN, the PREPARE that is told, and how much dearer an INSERT gets.
WANTED = [
    (
        "SELECT u.name FROM users AS u\n WHERE u.town = ? -- secret\n AND u.name >= 'secret' LIMIT 987;",
        "index users 1 (town, name)",
        "SELECT u.name FROM users AS u WHERE u.town = [1] AND u.name >= [2] LIMIT 987",
        "3 operations",
    ),
    (
        "SELECT name FROM users WHERE town = [2: b] AND name = [1] ORDER BY name DESC LIMIT 9",
        "index users 2 (town, name DESC)",
        "SELECT name FROM users WHERE town = [2: b] AND name = [1] ORDER BY name DESC LIMIT 9",
        "1 operation",
    ),
    (
        "SELECT id FROM posts WHERE line=987 LIMIT 1",
        "index posts 1 (line)",
        "SELECT id FROM posts WHERE line=[1] LIMIT 1",
        "1 operation",
    ),
]
PAGED = "SELECT a FROM t ORDER BY a PAGINATE 2"


class TextTest(unittest.TestCase):
    """What is read of a SELECT, without an engine."""

    def test_columns(self) -> None:
        for text, wanted in COLUMNS:
            with self.subTest(text):
                self.assertEqual([f"{name} {it.type}" for name, it in columns_of(text, SCHEMA)], wanted)

    def test_the_index_that_is_wanted(self) -> None:
        for text, line, prepare, more in WANTED:
            with self.subTest(text):
                select = read_statement(text)
                self.assertEqual(prepared(select), prepare)
                report = read_report(f"query explain stop 1 bound 2 2\n{line}\n7 ok bound 0 0 used 0 0\n")
                detail = wanted_index(select, report, SCHEMA)
                self.assertIn(f"`PREPARE name AS {prepare}` makes", detail.detail)
                self.assertIn(f"then has {more} more", detail.detail)
                self.assertEqual(detail.table, line.split()[1])
                self.assertNotIn("secret", detail.detail)


class SentTest(PipeCase):
    """What reaches the pipe."""

    def test_what_is_sent(self) -> None:
        connection = self.open()
        for text, values, wanted in SENT:
            with self.subTest(text):
                connection.execute(text, values)
                self.assertEqual(self.sent(), wanted)

    def test_each_value_is_one_token(self) -> None:
        connection, source = self.open(), random.Random(63)
        text = "SELECT a FROM t WHERE b = ? AND c <? AND d>=?"
        kept = [token.text for token in tokens(text)]
        for _ in range(1000):
            letters = "".join(source.choices("'';;-- \n\0a%s?[]\\é𝄞", k=source.randrange(12)))
            values = [letters, source.randrange(-(2**63), 2**63), source.random() < 0.5]
            source.shuffle(values)
            connection.execute(text, values)
            sent, rest = self.sent(), iter(values)
            self.assertTrue(is_one_piece(sent))
            wanted = [written(next(rest)).decode() if it == "?" else it for it in kept]
            self.assertEqual([token.text for token in tokens(sent.decode())], [*wanted, ";"])

    def test_what_is_not_sent(self) -> None:
        connection = self.open()
        for text, values, number in UNSENT:
            with self.subTest(text), self.assertRaises(piql.DatabaseError) as caught:
                connection.execute(text, values)
            self.assertEqual(caught.exception.number, number)
            self.assertTrue(number is None or " It is value " in str(caught.exception))
            self.assertEqual(self.sent(), b"")

    def test_pages_want_a_prepare(self) -> None:
        connection = self.open()
        cursor = connection.execute(PAGED)
        self.assertEqual(self.sent(), b"SHOW;" + PAGED.encode() + b";")
        self.assertEqual((cursor.fetchall(), cursor.wants_prepare), ([], True))
        with self.assertRaises(piql.NotSupportedError) as caught:
            cursor.next_page
        self.assertIn("PREPARE it", str(caught.exception))
        with self.assertRaises(piql.NotSupportedError):
            connection.execute(PAGED, after="AQ")
        self.assertEqual(self.sent(), b"SHOW;")
        cursor.execute("RUN q")
        self.assertEqual((cursor.next_page, cursor.wants_prepare), (None, False))

    def test_a_page(self) -> None:
        connection = self.open()
        with self.assertRaises(piql.BoundsRose) as caught:
            with piql.page(connection, most=1):
                for _ in range(2):
                    connection.execute("RUN q").execute("SELECT u.name FROM users AS u WHERE u.name = ?", ("ann",))
        self.assertTrue(str(caught.exception).endswith(": q 2, SELECT 2"))


class PlaceTest(PipeCase):
    """A place at which a SELECT spells nothing is told in the text as it was written."""

    text = "SELECT a FROM t\nWHERE b = [1: two] AND c = [2] OR d"
    told = "SELECT a FROM t\nWHERE b =  'é''s'  AND c =  7  OR d;"
    lie = f"%d refused E104 {len(told[: told.index('OR')].encode())} bound 0 0 used 0 0\n"

    def test_the_place(self) -> None:
        with self.assertRaises(piql.ProgrammingError) as caught:
            self.open().execute(self.text, ("é's", 7))
        place = caught.exception.place
        assert place is not None
        self.assertEqual(self.text.split("\n")[place.line - 1][place.column - 1 :], "OR d")


class ValueTest(PipeCase):
    """A value of another kind than its column is the value's fault; a literal of one is the statement's."""

    lie = "%d refused E302 2 bound 0 0 used 0 0\n"

    def test_whose_fault_it_is(self) -> None:
        for text, values, kind in (
            ("SELECT a FROM t WHERE b = 7 AND t.c >= ?", (8,), piql.DataError),
            ("SELECT a FROM t WHERE b = 7 AND t.c >= [1]", (8,), piql.DataError),
            ("UPDATE t SET b = 1 WHERE a = 2 IF b = 7 AND c >= ?", (8,), piql.DataError),
            ("SELECT a FROM t WHERE b = ? AND t.c >= 8", (7,), piql.ProgrammingError),
            ("DELETE FROM t WHERE a = ? IF b = 7 AND c >= 8", (7,), piql.ProgrammingError),
        ):
            with self.subTest(text), self.assertRaises(piql.DatabaseError) as caught:
                self.open().execute(text, values)
            self.assertIs(type(caught.exception), kind)
            self.assertRegex(str(caught.exception), r" It is (t\.)?c >= \?\.")


class OlderTest(PipeCase):
    """An engine whose language has no such statement."""

    lie = "%d refused E104 1 bound 0 0 used 0 0\n"

    def test_a_select_is_refused(self) -> None:
        connection = self.open()
        for _ in range(2):
            with self.assertRaises(piql.ProgrammingError) as caught:
                connection.execute(" SELECT a FROM t WHERE b = ?", (7,))
            self.assertIn("prepare=False", str(caught.exception))
        # It is asked once.
        self.assertEqual(self.sent(), b" SELECT a FROM t WHERE b =  7 ;SHOW;SHOW;")


class IndexTest(PipeCase):
    """A SELECT that wants an index, over a stand-in that doesn't tell which."""

    lie = "%d refused E406 users bound 0 0 used 0 0\n"

    def test_the_refusal(self) -> None:
        connection = self.open()
        with self.assertRaises(piql.ProgrammingError) as caught:
            connection.execute("SELECT u.name FROM users AS u WHERE u.town = ? LIMIT 9", ("rome",))
        self.assertEqual((caught.exception.number, caught.exception.fields), ("E406", {"table": "users"}))
        explain = b"EXPLAIN SELECT u.name FROM users AS u WHERE u.town = [1] LIMIT 9;"
        self.assertTrue(self.sent().endswith(explain))
        self.assertEqual(caught.exception.table, "users")
