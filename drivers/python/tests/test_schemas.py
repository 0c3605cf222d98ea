"""Growing a schema, bounds.lock and stored rows."""

import contextlib
import io
import sqlite3
import subprocess
import unittest
from pathlib import Path

from helpers import TOP, built, needs_file, new_folder, piql
from piql.__main__ import main
from piql.connection import Connection
from piql.hosts.link import HostLink
from piql.hosts.memory import MemoryStore
from piql.migrate import check_rows, missing_of, read_wanted, rehearsed
from piql.reports import DefinitionLine
from piql.schema import Added, Column, Counter, read_added, read_counter, read_query, read_schema, read_table
from piql.stored import opened, read_row, read_stored_schema, stored_rows

FIRST = """-- users and what they write
CREATE TABLE users (name TEXT(20), town TEXT(30) NULL, PRIMARY KEY (name));
PREPARE town AS SELECT u.town FROM users AS u WHERE u.name = [1: who];
"""
SECOND = FIRST + """
CREATE TABLE notes (owner TEXT(20), stamp INT, hot BOOL, PRIMARY KEY (owner, stamp),
  FOREIGN KEY (owner) REFERENCES users);
PREPARE latest AS SELECT stamp, hot FROM notes WHERE owner = [1] ORDER BY stamp LIMIT 5;
"""
# Codes of rows, written by hand from docs/FORMATS.md.
COLUMNS = (Column("a", "INT", None, False), Column("b", "TEXT", 9, True), Column("c", "BOOL", None, True))
CODES = [
    ("03 FFFFFFFFFFFFFFFE 0002 6869 01", (-2, "hi", True)),
    ("43 00000002 0000000000000007 00", (7, None, False)),
    ("43 00000006 0000000000000007", (7, None, None)),
]
# The same with two added columns, and codes of stored rows, which leave out the defaults at their end.
GROWN = (*COLUMNS, Column("d", "INT", None, False, True, 5), Column("e", "TEXT", 4, True, True, None))
STORED_CODES = [
    ("03 FFFFFFFFFFFFFFFE 0002 6869 01", (-2, "hi", True, 5, None)),
    ("43 00000002 0000000000000007 00", (7, None, False, 5, None)),
    ("04 FFFFFFFFFFFFFFFE 0002 6869 01 0000000000000006", (-2, "hi", True, 6, None)),
    ("05 FFFFFFFFFFFFFFFE 0002 6869 01 0000000000000005 0000", (-2, "hi", True, 5, "")),
]
STRANGE_CODES = [
    "02 0000000000000007 0000",
    "04 FFFFFFFFFFFFFFFE 0002 6869 01 0000000000000005",
    "45 00000010 FFFFFFFFFFFFFFFE 0002 6869 01 0000000000000006",
    "06 FFFFFFFFFFFFFFFE 0002 6869 01 0000000000000005 0000 00",
]
ADDED = "ALTER TABLE users ADD COLUMN karma INT DEFAULT 7;\n"
INDEXED = """PREPARE in_town AS SELECT u.name FROM users AS u WHERE u.town = [1] ORDER BY u.name LIMIT 5;
PREPARE hot_ones AS SELECT n.owner FROM notes AS n WHERE n.hot = [1] LIMIT 5;
"""
COUNTED = "CREATE COUNTER of_town OF users (town);\n"


class ReadingTest(unittest.TestCase):
    """Canonical texts and stored rows, without an engine."""

    def test_table(self) -> None:
        text = (
            "CREATE TABLE t (a INT, b TEXT(9) NULL, c BOOL NULL, PRIMARY KEY (a, c), CARDINALITY LIMIT 3 (b), "
            "FOREIGN KEY (b) REFERENCES u);"
        )
        table = read_table(text)
        self.assertEqual((table.name, table.columns, table.key), ("t", COLUMNS, ("a", "c")))

    def test_added_column(self) -> None:
        cases = {
            "w INT DEFAULT -5": Column("w", "INT", None, False, True, -5),
            "b BOOL NULL DEFAULT true": Column("b", "BOOL", None, True, True, True),
            "s TEXT(9) DEFAULT 'it''s; so'": Column("s", "TEXT", 9, False, True, "it's; so"),
            "s TEXT(9) NULL DEFAULT NULL": Column("s", "TEXT", 9, True, True, None),
            "null INT NULL DEFAULT 0": Column("null", "INT", None, True, True, 0),
            "add INT DEFAULT 0": Column("add", "INT", None, False, True, 0),
        }
        for column, wanted in cases.items():
            text = f"ALTER TABLE t ADD COLUMN {column};"
            self.assertEqual(read_added(text), Added("t", wanted, text))

    def test_a_schema_with_added_columns(self) -> None:
        texts = [
            "CREATE TABLE t (a INT, b TEXT(9) NULL, c BOOL NULL, PRIMARY KEY (a));",
            "CREATE TABLE u (a INT, PRIMARY KEY (a));",
            "ALTER TABLE t ADD COLUMN d INT DEFAULT 5;",
            "PREPARE q AS SELECT t.d FROM t AS t WHERE t.a = [1];",
            "ALTER TABLE t ADD COLUMN e TEXT(4) NULL DEFAULT NULL;",
        ]
        schema = read_schema([DefinitionLine(number, text) for number, text in enumerate(texts, 1)])
        self.assertEqual([it.name for it in schema.definitions], ["t", "u", "t.d", "q", "t.e"])
        self.assertEqual(schema.tables()["t"].columns, GROWN)
        self.assertEqual(list(schema.tables()), ["t", "u"])
        self.assertEqual(schema.columns_of(schema.queries()["q"]), [("d", GROWN[3])])

    def test_counter(self) -> None:
        text = "CREATE COUNTER of OF read (counter, of);"
        self.assertEqual(read_counter(text), Counter("of", "read", ("counter", "of"), text))

    def test_a_schema_with_counters(self) -> None:
        texts = [
            "CREATE TABLE counter (a INT, PRIMARY KEY (a));",
            "CREATE COUNTER c OF counter (a);",
            "PREPARE q AS SELECT counter.a FROM counter AS counter WHERE counter.a = [1];",
            "CREATE COUNTER d OF counter (a);",
        ]
        schema = read_schema([DefinitionLine(number, text) for number, text in enumerate(texts, 1)])
        self.assertEqual([it.name for it in schema.definitions], ["counter", "c", "q", "d"])
        found = (list(schema.tables()), list(schema.counters()), list(schema.queries()))
        self.assertEqual(found, (["counter"], ["c", "d"], ["q"]))

    def test_query(self) -> None:
        text = (
            "PREPARE q AS SELECT x.a, y.b FROM t AS x JOIN t AS y WHERE x.a = [1] AND y.b = 'FROM [9]'"
            " AND y.a = [2] ORDER BY y.a DESC PAGINATE 3;"
        )
        query = read_query(text)
        self.assertEqual((query.name, query.selected), ("q", (("x", "a"), ("y", "b"))))
        self.assertEqual((query.relations, query.params, query.pages), ((("x", "t"), ("y", "t")), 2, True))
        self.assertTrue(query.select().startswith("SELECT x.a"))

    def test_rows(self) -> None:
        for code, wanted in CODES:
            with self.subTest(code):
                self.assertEqual(read_row(COLUMNS, bytes.fromhex(code)), wanted)
        for code in ("02 0000000000000007", "03 0000000000000007 0000 01 00"):
            with self.subTest(code), self.assertRaises(piql.InternalError):
                read_row(COLUMNS, bytes.fromhex(code))


    def test_stored_rows(self) -> None:
        for code, wanted in STORED_CODES:
            with self.subTest(code):
                self.assertEqual(read_row(GROWN, bytes.fromhex(code)), wanted)
        for code in STRANGE_CODES:
            with self.subTest(code), self.assertRaises(piql.InternalError):
                read_row(GROWN, bytes.fromhex(code))


class StoredTest(unittest.TestCase):
    """A store's file, written by hand from docs/FORMATS.md."""

    def test_a_file(self) -> None:
        path = new_folder(self) / "store.db"
        text = "CREATE TABLE t (a INT, b TEXT(9) NULL, c BOOL NULL, PRIMARY KEY (a));"
        query = "PREPARE q AS SELECT t.a FROM t AS t WHERE t.a = [1];"
        rows = [bytes.fromhex(code) for code, _ in CODES]
        keys = ["0201107FFFFFFFFFFFFFFE", "0201108000000000000007", "0201108000000000000008"]
        texts = {"010001": text, "010002": query}
        pairs = [(bytes.fromhex(key), b"\1\0" + it.encode()) for key, it in texts.items()]
        with contextlib.closing(sqlite3.connect(path)) as file:
            file.execute("CREATE TABLE kv(k BLOB PRIMARY KEY, v BLOB NOT NULL)")
            file.executemany("INSERT INTO kv VALUES (?, ?)", [*pairs, *zip(map(bytes.fromhex, keys), rows)])
            file.execute("PRAGMA journal_mode = wal")
            file.commit()
        with opened(str(path)) as file:
            schema = read_stored_schema(file)
            self.assertEqual(list(schema.queries()), ["q"])
            found = list(stored_rows(file, 1, schema.tables()["t"].columns))
        self.assertEqual(found, [row for _, row in CODES])
        self.assertEqual([it.name for it in path.parent.glob("*-shm")], [])


@needs_file
class SchemaTest(unittest.TestCase):
    """Each test has a file and a schema of its own."""

    def setUp(self) -> None:
        self.folder = new_folder(self)
        self.path = self.folder / "store.db"
        self.schema = self.folder / "schema.piql"
        self.schema.write_text(FIRST)

    def open(self, path: Path | None = None) -> piql.Connection:
        connection = piql.connect(path or self.path)
        self.addCleanup(connection.close)
        return connection

    def test_migrate(self) -> None:
        connection, out = self.open(), io.StringIO()
        self.assertEqual(piql.migrate(connection, self.schema, out=out), ["users", "town"])
        self.assertEqual(out.getvalue(), "table users\nquery town whole bound 1 1\n")
        self.assertEqual(piql.migrate(connection, self.schema, out=out), [])
        self.schema.write_text(SECOND)
        self.assertEqual(piql.migrate(connection, self.schema, out=out), ["notes", "latest"])
        self.assertIn("query latest stop 1 bound 1 5\n", out.getvalue())
        self.assertEqual(len(connection.schema().definitions), 4)

    def told_difference(self, connection: piql.Connection) -> str:
        """What is told of a schema's file that says something else than the store."""
        with self.assertRaises(piql.ProgrammingError) as caught:
            piql.migrate(connection, self.schema, out=io.StringIO())
        return str(caught.exception)

    def test_migrate_adds_a_column(self) -> None:
        connection, out = self.open(), io.StringIO()
        piql.migrate(connection, self.schema, out=out)
        connection.execute("INSERT INTO users VALUES ('ann', 'rome')")
        self.schema.write_text(SECOND + ADDED)
        out = io.StringIO()
        self.assertEqual(piql.migrate(connection, self.schema, out=out), ["notes", "latest", "users.karma"])
        self.assertIn("column users.karma\n", out.getvalue())
        self.assertEqual(piql.migrate(connection, self.schema, out=out), [])
        rows = connection.execute("SELECT * FROM users WHERE name = 'ann'").fetchall()
        self.assertEqual(rows, [("ann", "rome", 7)])
        self.schema.write_text(SECOND + ADDED.replace("7", "8"))
        self.assertIn("users.karma", self.told_difference(connection))

    def test_migrate_makes_counters(self) -> None:
        connection, out = self.open(), io.StringIO()
        self.schema.write_text(FIRST + COUNTED)
        self.assertEqual(piql.migrate(connection, self.schema, out=out), ["users", "town", "of_town"])
        self.assertIn("counter of_town\n", out.getvalue())
        self.assertEqual(piql.migrate(connection, self.schema, out=out), [])
        connection.execute("INSERT INTO users VALUES ('ann', 'rome')")
        self.assertEqual(connection.execute("READ of_town ('rome')").fetchall(), [(1,)])
        self.schema.write_text(FIRST + COUNTED.replace("(town)", "(name)"))
        self.assertIn("of_town", self.told_difference(connection))

    def refused_counter(self, connection: piql.Connection) -> None:
        """A counter over the rows that a table has is refused before anything else of the schema is made."""
        self.schema.write_text(SECOND + COUNTED)
        out, before = io.StringIO(), connection.refresh()
        with self.assertRaises(piql.OperationalError) as caught:
            piql.migrate(connection, self.schema, out=out)
        self.assertEqual((caught.exception.number, caught.exception.fields), ("E209", {"table": "users"}))
        self.assertIn("rebuild OLD NEW SCHEMA", caught.exception.way_out)
        self.assertEqual(caught.exception.__notes__, ["at of_town; nothing was made"])
        self.assertEqual((connection.refresh(), out.getvalue()), (before, ""))

    def counted(self, connection: piql.Connection) -> None:
        """What is made over rows is looked at first: a counter is refused, and an index is told with the rows."""
        piql.migrate(connection, self.schema, out=io.StringIO())
        connection.execute("INSERT INTO users VALUES ('ann', 'rome')")
        connection.execute("INSERT INTO users VALUES ('bob', 'rome')")
        self.refused_counter(connection)
        self.schema.write_text(SECOND + INDEXED)
        out = io.StringIO()
        self.assertEqual(piql.migrate(connection, self.schema, out=out), ["notes", "latest", "in_town", "hot_ones"])
        lines = ["index users (town, name) over 2 rows", "index notes (hot)"]
        self.assertEqual([line for line in out.getvalue().splitlines() if line.startswith("index")], lines)
        self.assertEqual(connection.execute("RUN in_town ('rome')").fetchall(), [("ann",), ("bob",)])

    def test_migrate_looks_at_the_rows_of_a_file(self) -> None:
        self.counted(self.open())

    @unittest.skipUnless(built("piql_host"), "crates/piql_host is not built")
    def test_migrate_looks_at_the_rows_of_a_host(self) -> None:
        link = HostLink("pairs", MemoryStore(), built("piql_host"))
        self.addCleanup(link.close)
        self.counted(Connection(link))

    def test_migrate_looks_at_the_rows_behind_a_server(self) -> None:
        socket = self.folder / "socket"
        pipes = {"stdout": subprocess.PIPE, "stderr": subprocess.DEVNULL}
        with subprocess.Popen([TOP / "bin/piql-serve", self.path, socket], **pipes) as server:
            assert server.stdout is not None
            server.stdout.readline()
            try:
                with piql.connect(f"unix:{socket}") as connection:
                    self.counted(connection)
            finally:
                server.terminate()

    def test_a_rehearsal_finds_what_a_store_has_no_room_for(self) -> None:
        tables = [f"CREATE TABLE t{i} (a INT, PRIMARY KEY (a));" for i in range(8)]
        added = [f"ALTER TABLE t{i} ADD COLUMN c{j} INT DEFAULT 0;" for i in range(8) for j in range(31)]
        counters = [f"CREATE COUNTER c{i} OF t0 (a);" for i in range(4)]
        cases = ((tables + added, "definitions"), (tables + counters, "counters"))
        for texts, word in cases:
            there = read_schema([DefinitionLine(number, text) for number, text in enumerate(texts, 1)])
            self.schema.write_text(tables[0] + "CREATE COUNTER more OF t0 (a);")
            missing = missing_of(there, read_wanted(self.schema))
            with self.subTest(word), self.assertRaises(piql.NotSupportedError) as caught:
                rehearsed(there, missing, None)
            self.assertEqual((caught.exception.number, caught.exception.fields), ("E206", {"word": word}))
            self.assertEqual(caught.exception.__notes__, ["at more; nothing was made"])

    def test_an_index_over_too_many_rows(self) -> None:
        self.schema.write_text(FIRST + INDEXED.partition("PREPARE hot")[0])
        missing = read_wanted(self.schema)[-1:]
        check_rows(missing, {"users": 1_000_000})
        with self.assertRaises(piql.OperationalError) as caught:
            check_rows(missing, {"users": 1_000_001})
        self.assertEqual((caught.exception.number, caught.exception.fields), ("E207", {"table": "users"}))

    def test_a_schema_that_can_not_be_read(self) -> None:
        self.schema.write_bytes(b"-- \xff")
        for path in (self.schema, self.folder / "no.piql"):
            with self.subTest(path), self.assertRaisesRegex(piql.OperationalError, "can't be read"):
                read_wanted(path)

    def test_migrate_refuses_what_differs(self) -> None:
        connection, out = self.open(), io.StringIO()
        piql.migrate(connection, self.schema, out=out)
        self.schema.write_text(SECOND.replace("TEXT(30)", "TEXT(31)"))
        told = self.told_difference(connection)
        self.assertIn("TEXT(31)", told)
        self.assertIn("TEXT(30)", told)
        self.assertEqual(len(connection.schema().definitions), 2)

    def test_migrate_names_the_line(self) -> None:
        connection = self.open()
        for text in ("PREPARE town AS SELECT nothing FROM users WHERE name = [1];", "SHOW;"):
            self.schema.write_text(FIRST.partition("PREPARE")[0] + "\n\n" + text)
            with self.subTest(text), self.assertRaises(piql.ProgrammingError) as caught:
                piql.migrate(connection, self.schema)
            self.assertEqual(caught.exception.__notes__, [f"in {self.schema}, line 5"])

    def test_bounds(self) -> None:
        connection, lock = self.open(), self.folder / "bounds.lock"
        self.schema.write_text(SECOND)
        piql.migrate(connection, self.schema, out=io.StringIO())
        piql.write_bounds(connection, lock)
        self.assertEqual(piql.read_bounds(lock), {"town": (1, 1), "latest": (1, 5)})
        piql.check_bounds(connection, lock)
        for before, after in (("latest 1 5", "latest 1 4"), ("latest 1 5", "latest 0 9"), ("town 1 1\n", "")):
            text = lock.read_text()
            lock.write_text(text.replace(before, after))
            with self.subTest(after), self.assertRaises(piql.BoundsRose):
                piql.check_bounds(connection, lock)
            lock.write_text(text)

    def test_commands(self) -> None:
        lock, copy = self.folder / "bounds.lock", self.folder / "copy.db"
        for words in (
            ["migrate", self.path, self.schema],
            ["bounds", self.path, "--write", lock],
            ["bounds", self.path, "--check", lock],
            ["backup", self.path, copy],
        ):
            with self.subTest(words), contextlib.redirect_stdout(io.StringIO()):
                self.assertEqual(main([str(word) for word in words]), 0)
        lock.write_text("")
        with contextlib.redirect_stderr(io.StringIO()) as errors:
            self.assertEqual(main(["bounds", str(self.path), "--check", str(lock)]), 2)
        self.assertIn("town 1 1", errors.getvalue())
