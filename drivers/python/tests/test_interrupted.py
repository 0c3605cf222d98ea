"""What stands where a statement at the prompt is interrupted, and what the prompt says of it."""

import contextlib
import io
import os
import shutil
import signal
import unittest
from pathlib import Path
from unittest import mock

from clusters import etcd_url, needs_etcd
from helpers import PIQL_FILE, built, make_folder, needs_file, needs_memory, new_folder, piql
from piql.hosts import Fault, Guard, HostLink, MemoryStore
from piql.interrupted import of_statement
from piql.interrupts import held_back
from piql.shell import Shell
from piql.statements import Kind
from piql.stored import DEFINITIONS, ENTRIES, ROWS, StoredDefinition, opened, pairs
from served import Served
from terminals import INTERRUPT, Terminal, children, hold, is_interrupt_pending, wait_for

PIQL_HOST = built("piql_host")
TABLE = "CREATE TABLE t (a INT, b INT, PRIMARY KEY (a))"
PREPARE = "PREPARE q AS SELECT x.a FROM t AS x WHERE x.b = [1] ORDER BY x.a LIMIT 3;"
NOTHING = "interrupted: this statement changes nothing\n"
NOT_MADE = "interrupted: nothing was made of this statement\n"
WRITTEN = "interrupted: this statement was made whole or not at all; read its row to see which\n"
AT_SERVER = "interrupted: the server makes this statement all the same, if it had it whole; ask for it to see\n"
FIRST = "the index of q isn't filled yet: the next statement fills it first, from the beginning\n"
UNFILLED = f"interrupted: PREPARE q stands; {FIRST}"
UNFILLED_WHOLE = UNFILLED.rstrip("\n")
UNKNOWN = (
    "interrupted: this statement was made whole or not at all, and the store can't be looked at now"
    " (the store: no member answers)\n"
)
MANY = 20_000
# Of the log, once the mark was committed and entries behind it.
ENTRIES_BYTES = 1 << 16


class SaidTest(unittest.TestCase):
    """What is said of a statement, without an engine."""

    def test_definitions(self) -> None:
        texts = ("CREATE TABLE t (a INT, PRIMARY KEY (a));", "ALTER TABLE t ADD COLUMN c INT DEFAULT 0;")
        found = [StoredDefinition(text, True) for text in texts]
        for kind, text, said in (
            (Kind.CREATE, "create table T (b INT)", "create table T stands"),
            (Kind.CREATE, "CREATE TABLE tt (b INT)", "nothing was made of this statement"),
            (Kind.CREATE, "CREATE COUNTER t OF t (a)", "nothing was made of this statement"),
            (Kind.ALTER, "ALTER TABLE t ADD COLUMN c INT", "ALTER TABLE t ADD COLUMN c stands"),
            (Kind.ALTER, "ALTER TABLE t ADD COLUMN d INT", "nothing was made of this statement"),
            (Kind.PREPARE, "PREPARE", "nothing was made of this statement"),
        ):
            self.assertEqual(of_statement(kind, text, found), said)

    def test_an_interrupt_that_is_held_back(self) -> None:
        with held_back() as held:
            os.kill(os.getpid(), signal.SIGINT)
        self.assertTrue(held.is_interrupted)
        with held_back() as held:
            pass
        self.assertFalse(held.is_interrupted)
        with self.assertRaises(KeyboardInterrupt):
            os.kill(os.getpid(), signal.SIGINT)


def queries_of(path: Path) -> list[bytes]:
    """The queries of a file that no engine has."""
    with opened(str(path)) as file:
        return [value for _, value in pairs(file, DEFINITIONS) if value[2:].startswith(b"PREPARE")]


@needs_file
class FileTest(unittest.TestCase):
    """A prompt over a file, at a terminal."""

    filled: Path

    @classmethod
    def setUpClass(cls) -> None:
        folder = make_folder()
        cls.addClassCleanup(shutil.rmtree, folder, ignore_errors=True)
        cls.filled = folder / "filled.db"
        with piql.connect(cls.filled) as connection:
            connection.execute(TABLE)
            for begin in range(0, MANY, 250):
                with connection.batch() as batch:
                    for number in range(begin, begin + 250):
                        batch.execute("INSERT INTO t VALUES (?, ?)", (number, number % 7))

    def setUp(self) -> None:
        self.folder = new_folder(self)
        self.path = self.folder / "store.db"
        shutil.copyfile(self.filled, self.path)
        self.terminal = Terminal(self, self.folder, str(self.path))

    def test_before_a_builds_mark_nothing_is_there(self) -> None:
        self.assertIn(NOT_MADE, self.terminal.interrupt_unread(PREPARE))
        self.assertNotIn("PREPARE", self.terminal.ask(".queries").partition("\n")[2])
        self.assertEqual(self.terminal.ask("SELECT a FROM t WHERE a = 3;").count("1 row\n"), 1)

    def interrupt_behind_the_mark(self) -> str:
        """What is said of an interrupt while the index is filled."""
        engine, log = self.terminal.engine(), Path(f"{self.path}-wal")
        self.terminal.type(PREPARE)
        wait_for(lambda: b"\1\1PREPARE q" in log.read_bytes(), "the definition has its mark")
        size = log.stat().st_size
        wait_for(lambda: log.stat().st_size > size + ENTRIES_BYTES, "entries are there")
        hold(engine)
        self.assertNotIn(b"\1\0PREPARE q", log.read_bytes())
        return self.terminal.interrupt()

    def test_behind_it_the_query_stands(self) -> None:
        self.assertIn(UNFILLED, self.interrupt_behind_the_mark())
        self.assertEqual([value[:11] for value in queries_of(self.path)], [b"\1\1PREPARE q"])
        self.assertIn("PREPARE q AS", self.terminal.ask(".queries"))
        self.assertEqual(self.terminal.ask("RUN q (5);").count("\n"), 8)
        self.assertIn("E201 q", self.terminal.ask(PREPARE))

    def test_the_opening_that_fills_it_is_interrupted(self) -> None:
        before = self.terminal.engine()
        self.interrupt_behind_the_mark()
        self.terminal.type("SELECT a FROM t WHERE a = 3;")
        wait_for(lambda: before not in self.terminal.engines() and [*self.terminal.engines()], "the next run is begun")
        hold(self.terminal.engine())
        said = self.terminal.interrupt()
        self.assertIn(f"interrupted: this statement changes nothing; {FIRST}", said)
        self.assertIn("1 row\n", self.terminal.ask("SELECT a FROM t WHERE a = 3;"))

    def test_a_define(self) -> None:
        self.terminal.ask("SELECT x.a FROM t AS x WHERE x.b = 2 ORDER BY x.a LIMIT 3;")
        self.assertIn(NOT_MADE, self.terminal.interrupt_unread(".define q"))

    def test_other_statements(self) -> None:
        self.assertIn(NOTHING, self.terminal.interrupt_unread("SELECT a FROM t WHERE a = 3;"))
        self.terminal.ask("SHOW;")
        both = "INSERT INTO t VALUES (-1, 0); DELETE FROM t WHERE a = 0;"
        self.assertIn(WRITTEN, self.terminal.interrupt_unread(both))
        self.assertIn("0 rows\n", self.terminal.ask("SELECT a FROM t WHERE a = -1;"))
        # The rest of the line isn't begun.
        self.assertIn("1 row\n", self.terminal.ask("SELECT a FROM t WHERE a = 0;"))
        self.assertIn(NOT_MADE, self.terminal.interrupt_unread("CREATE TABLE u (a INT, PRIMARY KEY (a));"))

    def test_a_line_that_is_typed(self) -> None:
        self.terminal.type("SELECT a")
        self.terminal.until("    > ")
        self.assertNotIn("interrupted", self.terminal.interrupt())


@needs_memory
class InMemoryTest(unittest.TestCase):
    """A prompt over a store in memory, whose rows would be lost."""

    def test_a_statement_is_waited_for(self) -> None:
        terminal = Terminal(self, new_folder(self))
        terminal.ask(f"{TABLE};")
        engine = terminal.engine()
        terminal.send_unread(engine, "INSERT INTO t VALUES (1, 2); INSERT INTO t VALUES (2, 3);")
        os.write(terminal.keys, INTERRUPT)
        wait_for(lambda: is_interrupt_pending(terminal.process), "the interrupt has come")
        os.kill(engine, signal.SIGCONT)
        self.assertIn("ok\nat most", terminal.until("piql> "))
        self.assertIn("1 row\n", terminal.ask("SELECT a FROM t WHERE a = 1;"))
        # The rest of the line isn't begun.
        self.assertIn("0 rows", terminal.ask("SELECT a FROM t WHERE a = 2;"))
        self.assertEqual(terminal.engine(), engine)


@needs_file
class ServerTest(unittest.TestCase):
    """A prompt over a server, which goes on."""

    def test_a_server_makes_it_all_the_same(self) -> None:
        folder = new_folder(self)
        server = Served(folder / "store.db", folder / "socket", program=Path(str(PIQL_FILE)))
        self.addCleanup(server.end)
        terminal = Terminal(self, folder, f"unix:{folder}/socket")
        terminal.ask(f"{TABLE};")
        (engine,) = children(server.process.pid)
        for line, said in (("INSERT INTO t VALUES (1, 2);", AT_SERVER), ("SELECT a FROM t WHERE a = 1;", NOTHING)):
            terminal.send_unread(engine, line)
            self.assertIn(said, terminal.interrupt())
            os.kill(engine, signal.SIGCONT)
            self.assertIn("1 row\n", terminal.ask("SELECT a FROM t WHERE a = 1;"))


class Interrupting(MemoryStore):
    """A store that is interrupted at the write of a key that begins so, before it is made or behind it."""

    def __init__(self) -> None:
        super().__init__()
        self.at, self.is_before = b"none", False

    def write(self, key: bytes, guard: Guard, held: bytes, new: bytes | None) -> bool:
        is_at = key.startswith(self.at)
        if is_at and self.is_before:
            os.kill(os.getpid(), signal.SIGINT)
        is_done = super().write(key, guard, held, new)
        if is_at:
            os.kill(os.getpid(), signal.SIGINT)
        return is_done


@unittest.skipUnless(PIQL_HOST, "crates/piql_host is not built")
class HostTest(unittest.TestCase):
    """A prompt over a host."""

    def setUp(self) -> None:
        self.store = Interrupting()
        connection = piql.Connection(HostLink("the store", self.store, PIQL_HOST))
        self.addCleanup(connection.close)
        self.shell = Shell(connection)
        self.said(f"{TABLE};")
        for number in range(5):
            self.said(f"INSERT INTO t VALUES ({number}, {number % 2});")

    @needs_etcd
    def test_at_a_cluster(self) -> None:
        folder = new_folder(self)
        terminal = Terminal(self, folder, etcd_url())
        terminal.ask(f"{TABLE};")
        self.assertIn(NOT_MADE, terminal.interrupt_unread(PREPARE))
        terminal.ask("SELECT x.a FROM t AS x WHERE x.b = 1 ORDER BY x.a LIMIT 3;")
        self.assertIn("index 1 of t: b, a\n", terminal.ask(".define q"))

    def said(self, line: str) -> str:
        """What is printed for a line."""
        with contextlib.redirect_stdout(io.StringIO()) as out:
            self.assertEqual(self.shell.line("", line), "")
        return out.getvalue()

    def interrupted(self, line: str, at: bytes, is_before: bool = False) -> str:
        """The same where it is interrupted at the write of a key."""
        self.store.at, self.store.is_before = at, is_before
        try:
            return self.said(line).lstrip("\n")
        finally:
            self.store.at = b"none"

    def test_before_a_builds_mark_nothing_is_there(self) -> None:
        self.assertEqual(self.interrupted(PREPARE, bytes([DEFINITIONS]), is_before=True), NOT_MADE)
        self.assertEqual(self.said(".queries"), "there are none\n")
        self.said("SELECT x.a FROM t AS x WHERE x.b = 1 ORDER BY x.a LIMIT 3;")
        self.assertIn("query q: at most", self.said(".define q"))

    def test_behind_it_the_query_stands(self) -> None:
        for at in (bytes([DEFINITIONS]), bytes([ENTRIES])):
            with self.subTest(at):
                self.setUp()
                self.assertEqual(self.interrupted(PREPARE, at), UNFILLED)
                self.assertIn("PREPARE q", self.said(".queries"))
                self.assertIn("\n2 rows\n", self.said("RUN q (1);"))

    def test_a_schema_that_is_grown(self) -> None:
        path = new_folder(self) / "schema.piql"
        path.write_text(f"{TABLE};\nCREATE TABLE u (a INT, PRIMARY KEY (a));\n{PREPARE}")
        self.store.at = bytes([ENTRIES])
        with self.assertRaises(KeyboardInterrupt) as caught:
            piql.migrate(self.shell.connection, path)
        self.store.at = b"none"
        made = f"in {path}, at q; made before it: u"
        self.assertEqual(caught.exception.__notes__, [made, UNFILLED_WHOLE])
        self.assertEqual(piql.migrate(self.shell.connection, path), [])

    def test_a_store_that_cant_be_looked_at(self) -> None:
        with mock.patch.object(self.store, "begin", side_effect=Fault("no member answers")):
            said = self.interrupted("INSERT INTO t VALUES (9, 9);", bytes([ROWS]), is_before=True)
        self.assertEqual(said, UNKNOWN)

    def test_a_definition_that_is_one_write(self) -> None:
        text = "CREATE TABLE u (a INT, PRIMARY KEY (a));"
        self.assertEqual(self.interrupted(text, bytes([DEFINITIONS]), is_before=True), NOT_MADE)
        self.assertEqual(self.interrupted(text, bytes([DEFINITIONS])), "interrupted: CREATE TABLE u stands\n")
        self.assertIn("E201 u", self.said(text))

if __name__ == "__main__":
    unittest.main()
