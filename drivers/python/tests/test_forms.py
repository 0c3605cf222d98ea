"""Over the engine: writes on a condition, numbers that are added to, and a SELECT that leaves nothing."""

import contextlib
import io
import random
import unittest

from helpers import needs_file, new_folder, piql
from piql.shell import Shell

SCRIPT = """
CREATE TABLE m (id INT, v INT, PRIMARY KEY (id));
CREATE TABLE users (name TEXT(20), city TEXT(30), PRIMARY KEY (name));
CREATE TABLE c (id INT, p INT NULL, PRIMARY KEY (id));
CREATE TABLE if (if INT, add INT, batch INT NULL, PRIMARY KEY (if));
CREATE TABLE texts (t TEXT(100), n INT, b BOOL, PRIMARY KEY (t, n, b));
INSERT INTO m VALUES (1, 7);
INSERT INTO users VALUES ('ann', 'rome');
INSERT INTO users VALUES ('bob', 'oslo');
INSERT INTO c VALUES (1, NULL);
INSERT INTO if VALUES (1, 1, NULL);
"""
SET = "UPDATE m SET v = 9 WHERE id = 1"
TOWN = "SELECT u.name FROM users AS u WHERE u.city = ? LIMIT 10"
BY_NAME = "SELECT u.city FROM users AS u WHERE u.name = ?"
PAGE = "SELECT u.name, u.city FROM users AS u ORDER BY u.name PAGINATE 1"
Values = tuple[object, ...]
# Statements one after the other, with their values; a write has a row count, a SELECT its rows.
DONE: list[tuple[str, Values, object]] = [
    ("UPDATE m SET v = ? WHERE id = ? IF v = ?", (8, 1, 7), 1),
    ("DELETE FROM m WHERE id = 2 IF v = 1", (), 0),
    ("UPDATE m SET v ADD ? WHERE id = 1 IF v >= ?", (-2, 2), 1),
    ("SELECT m.v FROM m WHERE m.id = [1: id]", (1,), [(6,)]),
    ("UPDATE if SET batch = 2 WHERE if = 1 IF if = 1 AND batch IS NULL", (), 1),
    ("UPDATE if SET add ADD 2, batch ADD -5 WHERE if = ? IF add = ?", (1, 1), 1),
    ("select add, batch from if where if = ?", (1,), [(3, -3)]),
    ("UPDATE c SET p = 1 WHERE id = 1 IF p IS NULL AND id <= 1", (), 1),
    ("UPDATE c SET p ADD 1 WHERE id = 1 IF p <> 2 AND p <> 3", (), 1),
    ("DELETE FROM c WHERE id = 1 IF p = 2", (), 1),
    (BY_NAME, ("ann",), [("rome",)]),
    (BY_NAME, ("'; DELETE FROM users WHERE name = 'ann'; --",), []),
    ("SELECT * FROM users WHERE name = ?", ("bob",), [("bob", "oslo")]),
    ("SELECT a.name, b.city FROM users a, users b WHERE a.name = [1] AND b.name = [1]", ("bob",), [("bob", "oslo")]),
    ("SELECT name FROM users ORDER BY name LIMIT 9", (), [("ann",), ("bob",)]),
]
MANY = " AND ".join(["v = 9"] * 17)
# Statements over the first rows, each by itself: the exception, the number and the fields of the refusal.
REFUSED: list[tuple[str, Values, type[piql.Error], str, dict[str, str]]] = [
    (f"{SET} IF v = ?", (8,), piql.Changed, "E511", {"table": "m", "number": "1"}),
    (f"{SET} IF v >= 7 AND v < 7", (), piql.Changed, "E511", {"table": "m", "number": "2"}),
    ("DELETE FROM m WHERE id = 1 IF v IS NULL", (), piql.Changed, "E511", {"table": "m", "number": "1"}),
    ("DELETE FROM if WHERE if = 1 IF batch <> 2", (), piql.Changed, "E511", {"table": "if", "number": "1"}),
    (f"{SET} IF w = 1", (), piql.ProgrammingError, "E203", {"name": "w"}),
    (f"{SET} IF v = 1 AND v = 'a'", (), piql.ProgrammingError, "E302", {"number": "2"}),
    (f"{SET} IF v = 1 AND v = ?", ("a",), piql.DataError, "E302", {"number": "2"}),
    (f"{SET} IF {MANY}", (), piql.NotSupportedError, "E206", {"word": "predicates"}),
    (f"{SET} IF v = NULL", (), piql.ProgrammingError, "E104", {"at": "39"}),
    (f"{SET} IF v = ?", (None,), piql.ProgrammingError, "E104", {"at": "39"}),
    ("UPDATE m SET v ADD ? WHERE id = 1", (2**63 - 1,), piql.DataError, "E514", {"table": "m", "column": "v"}),
    ("UPDATE c SET p ADD 1 WHERE id = 1", (), piql.DataError, "E514", {"table": "c", "column": "p"}),
    ("UPDATE m SET v = 1, v ADD 1 WHERE id = 1", (), piql.ProgrammingError, "E204", {"name": "v"}),
    (
        "UPDATE users SET city ADD 1 WHERE name = 'ann'",
        (),
        piql.DataError,
        "E501",
        {"table": "users", "column": "city"},
    ),
    ("UPDATE m SET v ADD 'a' WHERE id = 1", (), piql.ProgrammingError, "E104", {"at": "19"}),
    ("UPDATE m SET v ADD ? WHERE id = 1", (True,), piql.ProgrammingError, "E104", {"at": "19"}),
    (TOWN, ("rome",), piql.ProgrammingError, "E406", {"table": "users"}),
    ("SELECT u.name FROM users AS u WHERE u.city = 'rome'", (), piql.NotSupportedError, "E304", {"alias": "u"}),
    ("SELECT u.name FROM users u WHERE u.name = [2]", (1, 2), piql.ProgrammingError, "E303", {}),
    (BY_NAME, (7,), piql.DataError, "E302", {"number": "1"}),
    (BY_NAME, ("x" * 1001,), piql.DataError, "E302", {"number": "1"}),
    (BY_NAME, (None,), piql.DataError, "E402", {"number": "1"}),
    ("SELECT u.name FROM users u WHERE u.name = 7", (), piql.ProgrammingError, "E302", {"number": "1"}),
    ("SELECT name FROM users LIMIT ?", (5,), piql.ProgrammingError, "E104", {"at": "29"}),
    ("SELECT 1", (), piql.ProgrammingError, "E104", {"at": "7"}),
]


@needs_file
class FormCase(unittest.TestCase):
    """Each test has a file of its own, and a connection that prepares nothing."""

    def setUp(self) -> None:
        self.path = new_folder(self) / "store.db"
        self.connection = piql.connect(self.path)
        self.addCleanup(self.connection.close)
        self.connection.cursor().executescript(SCRIPT)


class FormTest(FormCase):
    """Statements by the driver."""

    def test_what_is_done(self) -> None:
        definitions = self.connection.schema().definitions
        for text, values, wanted in DONE:
            with self.subTest(text):
                cursor = self.connection.execute(text, values)
                self.assertEqual(cursor.rowcount if isinstance(wanted, int) else cursor.fetchall(), wanted)
        self.assertEqual(self.connection.refresh().definitions, definitions)

    def test_what_is_refused(self) -> None:
        for text, values, kind, number, fields in REFUSED:
            with self.subTest(text), self.assertRaises(kind) as caught:
                self.connection.execute(text, values)
            self.assertEqual((caught.exception.number, caught.exception.fields), (number, fields))
            self.assertIs(type(caught.exception), kind)
            self.assertTrue(caught.exception.way_out)
        self.assertEqual(self.connection.execute("SELECT v FROM m WHERE id = 1").fetchall(), [(7,)])

    def test_a_row_that_was_changed(self) -> None:
        with self.assertRaises(piql.Changed) as caught:
            self.connection.execute(f"{SET} IF v > 6 AND id = ? AND v < ?", (1, 7))
        error = caught.exception
        self.assertEqual((error.table, error.condition, error.condition_text), ("m", 3, "v < ?"))

    def test_an_index_that_is_wanted(self) -> None:
        with self.assertRaises(piql.ProgrammingError) as caught:
            self.connection.execute(TOWN, ("rome",))
        told = str(caught.exception)
        self.assertIn(f"`PREPARE name AS {TOWN.replace('?', '[1]')}`", told)
        self.assertIn("then has 3 operations more", told)
        self.assertEqual((caught.exception.table, caught.exception.key[0]), ("users", "city"))
        self.connection.execute(f"PREPARE in_city AS {TOWN}")
        # Its tokens are the query's, so it is run; with another limit it is a SELECT, and the index is there.
        for text in (TOWN, TOWN.replace("10", "9")):
            self.assertEqual(self.connection.execute(text, ("rome",)).fetchall(), [("ann",)])
        self.assertEqual(len(self.connection.refresh().queries()), 1)

    def test_what_is_told_of_an_answer(self) -> None:
        cursor = self.connection.execute("SELECT users.city, m.v FROM users, m WHERE name = ? AND m.id = ?", ("ann", 1))
        described = [(it.name, it.type_code, it.internal_size, it.null_ok) for it in cursor.description or ()]
        self.assertEqual(described, [("city", "TEXT", 30, False), ("v", "INT", None, False)])
        self.assertEqual((cursor.bound, cursor.used, cursor.next_page), ((2, 2), (2, 2), None))

    def test_pages(self) -> None:
        cursor = self.connection.execute(PAGE)
        self.assertEqual((cursor.fetchall(), cursor.wants_prepare), ([("ann", "rome")], True))
        for use in (lambda: cursor.next_page, lambda: self.connection.execute(PAGE, after="AQ")):
            with self.assertRaises(piql.NotSupportedError) as caught:
                use()
            self.assertIn("PREPARE it", str(caught.exception))
        self.connection.execute(f"PREPARE all_of_them AS {PAGE}")
        after = self.connection.execute(PAGE).next_page
        self.assertEqual(self.connection.execute(PAGE, after=after).fetchall(), [("bob", "oslo")])

    def test_each_connection_by_itself(self) -> None:
        self.connection.close()
        with piql.connect(self.path, prepare=True) as other:
            self.assertEqual(other.execute(BY_NAME, ("ann",)).fetchall(), [("rome",)])
            self.assertEqual(len(other.schema().queries()), 1)

    def test_random_values(self) -> None:
        source = random.Random(39)
        for _ in range(500):
            letters = "".join(source.choices("ab'\n\0;-é€𝄞\\\"?[1]%s", k=source.randrange(20)))
            row = (letters, source.randrange(-(2**63), 2**63), source.random() < 0.5)
            self.connection.execute("INSERT INTO texts VALUES (?, ?, ?)", row)
            for text in ("t = ? AND n = ? AND b = ?", "t = [1] AND n=[2]AND b = [3]"):
                found = self.connection.execute(f"SELECT t, n, b FROM texts WHERE {text}", row).fetchall()
                self.assertEqual(found, [row])
        self.assertEqual(self.connection.refresh().queries(), {})


class PromptTest(FormCase):
    """The prompt."""

    def test_a_select(self) -> None:
        shell, rest = Shell(self.connection), ""
        lines = [
            "SELECT u.name FROM users u WHERE u.city = 'oslo' LIMIT 5;",
            ".define in_oslo",
            "SELECT u.name FROM users u",
            "WHERE u.city = 'rome' LIMIT 5; SELECT * FROM users PAGINATE 1;",
            ".next",
            ".define everybody",
            "RUN everybody;",
            ".next",
        ]
        with contextlib.redirect_stdout(io.StringIO()) as out:
            for line in lines:
                rest = shell.line(rest, line)
        said = out.getvalue()
        for part in (
            "E406 users: the SELECT wants an index",
            "PREPARE name AS SELECT u.name FROM users u WHERE u.city = [1] LIMIT 5 makes",
            "query in_oslo: at most 6 operations, 10 entries\nindex 1 of users: city",
            "250 of 256 definitions are left\n",
            "name\n----\nann\n1 row\nat most 6 operations, 10 entries; used 2, 2\n",
            "1 row; a page of a SELECT that isn't prepared, .define NAME makes the further ones\n",
            "the last answer has no further page\n",
            "1 row; .next has more\n",
            "bob  | oslo\n1 row",
        ):
            with self.subTest(part):
                self.assertIn(part, said)
