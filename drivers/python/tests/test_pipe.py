"""What reaches the engine's pipe, byte for byte: no value and no text changes the statement that it stands in."""

import contextlib
import io
import random
import socket
import subprocess
import unittest
from unittest import mock

from helpers import PIQL_FILE, TOP, needs_file, piql
from pipes import RECORDING, PipeCase, written
from piql.frames import REPORT, STATEMENT, read_frame, write_frame
from piql.links import FileLink
from piql.load import load
from piql.migrate import migrate
from piql.rebuild import rebuild
from piql.schema import Column, Schema, Table
from piql.scripts import is_one_piece, pieces
from piql.shell import Shell
from recording_engine import Cutter

ATTACK = "'x'); DELETE FROM t WHERE id = 1; --"
RANDOM_VALUES = 10_000
INSERT, PLACES = "INSERT INTO t VALUES (?, ?, ?)", b"INSERT INTO t VALUES (%b, %b, %b);"


class Text(str):
    """A text whose every method speaks of another one."""

    def lies(self, *_given: object, **_named: object) -> str:
        return ATTACK

    __str__ = __repr__ = __format__ = __getitem__ = __add__ = __radd__ = __mod__ = lies  # type: ignore[assignment]
    replace = join = format = strip = lower = upper = translate = removeprefix = lies  # type: ignore[assignment]

    def encode(self, *_given: object) -> bytes:  # type: ignore[override]
        return ATTACK.encode()

    def __iter__(self):  # type: ignore[no-untyped-def]
        return iter(ATTACK)

    def __len__(self) -> int:
        return 0

    def __contains__(self, _part: object) -> bool:
        return False

    def __eq__(self, _other: object) -> bool:
        return True

    def __hash__(self) -> int:
        return hash("SHOW")

    def isascii(self) -> bool:
        return True

    def split(self, *_given: object) -> list[str]:  # type: ignore[override]
        return [ATTACK]


class Number(int):
    """A number whose every method speaks of another one, or of a text."""

    def lies(self, *_given: object) -> str:
        return ATTACK

    __str__ = __repr__ = __format__ = lies  # type: ignore[assignment]

    def __index__(self) -> int:
        return 10**40

    __int__ = __trunc__ = __index__

    def __le__(self, _other: object) -> bool:
        return True

    __lt__ = __ge__ = __gt__ = __eq__ = __bool__ = __le__  # type: ignore[assignment]

    def __hash__(self) -> int:
        return 0


class Pretender:
    """What says that it is a text, a truth value or a number, and is none."""

    def __init__(self, kind: type) -> None:
        self.kind = kind

    @property  # type: ignore[misc]
    def __class__(self) -> type:
        return self.kind

    def __str__(self) -> str:
        return ATTACK

    def __index__(self) -> int:
        return 1

    def __eq__(self, _other: object) -> bool:
        return True


class Row(list):  # type: ignore[type-arg]
    """Values whose class says that they are fewer than they are."""

    def __len__(self) -> int:
        return 1


class EntryTest(PipeCase):
    """Each way by which a value or a text of a caller comes to the engine."""

    def test_execute(self) -> None:
        connection = self.open()
        connection.execute(INSERT, (Number(7), Text("it's"), True))
        self.assertEqual(self.sent(), PLACES % (b"7", b"'it''s'", b"TRUE"))
        connection.execute("UPDATE t SET a = ? WHERE id = ?", [Text(ATTACK), Number(-1)])
        self.assertEqual(self.sent(), b"UPDATE t SET a = %b WHERE id = -1;" % written(ATTACK))

    def test_the_text_of_a_statement(self) -> None:
        connection = self.open()
        for run in (connection.execute, connection.cursor().execute):
            run(Text("DELETE FROM t WHERE id = ?"), (1,))
            self.assertEqual(self.sent(), b"DELETE FROM t WHERE id = 1;")
        connection.cursor().executescript(Text("RUN q (';'); SHOW;"))
        self.assertEqual(self.sent(), b"RUN q (';'); SHOW;")

    def test_executemany(self) -> None:
        connection = self.open()
        connection.cursor().executemany(Text(INSERT), [(Number(1), Text("'"), None), [2, "", False]])
        self.assertEqual(self.sent(), PLACES % (b"1", b"''''", b"NULL") + PLACES % (b"2", b"''", b"FALSE"))

    def test_callproc(self) -> None:
        cursor = self.open().cursor()
        cursor.callproc(Text("by_name"), [Text("o'x"), Number(3)])
        self.assertEqual(self.sent(), b"RUN by_name ('o''x', 3);")
        for name in ("q (1); DELETE FROM t WHERE id = 1; RUN q", "q -- ", "", "é", "1q", "q;"):
            with self.subTest(name), self.assertRaises(piql.ProgrammingError):
                cursor.callproc(name, (1,))
        self.assertEqual(self.sent(), b"")

    def test_the_cursor_of_a_page(self) -> None:
        connection = self.open()
        connection.execute("RUN q (?)", (1,), after=Text("A'; SHOW; '"))
        self.assertEqual(self.sent(), b"RUN q (1) AFTER 'A''; SHOW; ''';")
        with self.assertRaises(piql.ProgrammingError):
            connection.execute("RUN q (?)", (1,), after=7)  # type: ignore[arg-type]
        self.assertEqual(self.sent(), b"")

    def test_a_select_by_its_run(self) -> None:
        connection = self.open(prepare=True)
        connection.execute(Text("SELECT x.a FROM t AS x WHERE x.b = ?"), (Text("b'"),))
        name = b"q_" + self.sent().partition(b"RUN q_")[2]
        self.assertRegex(name, rb"^q_[0-9a-f]{30} \('b'''\);$")

    def test_values_that_are_none(self) -> None:
        connection = self.open()
        for kind in (str, int, bool):
            with self.assertRaises(piql.ProgrammingError):
                connection.execute(INSERT, (1, Pretender(kind), True))
        with self.assertRaises(piql.ProgrammingError):
            connection.execute("RUN q (?)", Row([1, 2]))
        with self.assertRaises(TypeError):
            type("Truth", (bool,), {})
        self.assertEqual(self.sent(), b"")

    def test_a_value_that_would_spell_another_token(self) -> None:
        connection = self.open()
        for text in ("UPDATE t SET a = -? WHERE id = 1", "RUN q ('a'?)", "RUN q?", "RUN q (1?)", "RUN q (??)"):
            values = ["x"] * text.count("?")
            with self.subTest(text), self.assertRaises(piql.ProgrammingError):
                connection.execute(text, values)
        self.assertEqual(self.sent(), b"")
        connection.execute("UPDATE t SET a=?,b= - ? WHERE id=?", (-1, -2, -3))
        self.assertEqual(self.sent(), b"UPDATE t SET a=-1,b= - -2 WHERE id=-3;")

    def test_load(self) -> None:
        connection = self.open()
        columns = (Column("id", "INT", None, False), Column("a", "TEXT", 50, True))
        connection._schema = Schema((Table("t", columns, ("id",), ""),))
        connection.refresh = lambda: connection.schema()  # type: ignore[method-assign]
        source = io.StringIO(f'id,a\n1,"{ATTACK}"\n2,\n')
        load(connection, "t", source, self.folder / "mark", io.StringIO())
        self.assertEqual(self.sent(), b"BATCH INSERT INTO t VALUES (1, %b), INSERT INTO t VALUES (2, NULL);" % written(ATTACK))

    def test_the_shell(self) -> None:
        shell = Shell(self.open())
        with contextlib.redirect_stdout(io.StringIO()):
            shell.line("", f"DELETE FROM t WHERE a = {written(ATTACK).decode()};")
        self.assertEqual(self.sent(), b"DELETE FROM t WHERE a = %b;" % written(ATTACK))


class ByteTest(PipeCase):
    """Values of all kinds of letters."""

    def test_each_byte(self) -> None:
        connection = self.open()
        for code in [*range(0x250), 0x2028, 0xFEFF, 0xFFFF, 0x1D11E, 0x10FFFF]:
            for text in (chr(code), f"a{chr(code)}'{chr(code)}"):
                connection.execute("RUN q (?)", (text,))
                self.assertEqual(self.sent(), b"RUN q (%b);" % written(text))
        with self.assertRaises(piql.DataError):
            connection.execute("RUN q (?)", ("\ud800",))
        self.assertEqual(self.sent(), b"")

    def test_random_values(self) -> None:
        connection, source = self.open(), random.Random(60)
        kinds = {int: Number, str: Text}
        for _ in range(RANDOM_VALUES // 4):
            letters = "".join(source.choices("'';;-- \n\0a%s?[]\\é𝄞", k=source.randrange(12)))
            values = [source.randrange(-(2**63), 2**63), letters, source.random() < 0.5, source.choice([None, letters])]
            given = [kinds[type(it)](it) if type(it) in kinds and source.random() < 0.5 else it for it in values]
            connection.execute("INSERT INTO t VALUES (?, ?, ?, ?)", given)
            wanted = b"INSERT INTO t VALUES (%b, %b, %b, %b);" % tuple(map(written, values))
            self.assertEqual(self.sent(), wanted)


@needs_file
class RebuildTest(PipeCase):
    """Schemas and rows that go from one store to another, by the engine itself behind the record."""

    def statements(self) -> list[bytes]:
        """The statements that were sent, each of which has to be whole."""
        sent = self.sent()
        found = list(pieces(sent))
        self.assertTrue(all(it.is_whole for it in found))
        return [sent[it.start : it.end].strip() for it in found]

    def test_migrate_and_rebuild(self) -> None:
        self.set("PIQL_RECORDED", str(PIQL_FILE))
        schema, text = self.folder / "schema.piql", written(ATTACK)
        table = b"CREATE TABLE t (a TEXT(60), b TEXT(60), PRIMARY KEY (a));"
        query = b"PREPARE q AS SELECT t.a FROM t AS t WHERE t.a = %b;" % text
        schema.write_bytes(table + b"\n" + query)
        with self.open() as connection:
            migrate(connection, schema, program=RECORDING, out=io.StringIO())
            connection.execute("INSERT INTO t VALUES (?, ?)", (ATTACK, "b"))
        told = [it for it in self.statements() if it != b"SHOW;"]
        self.assertEqual(told[-3:], [table, query, b"INSERT INTO t VALUES (%b, 'b');" % text])
        schema.write_bytes(table.replace(b"(60), PRIMARY", b"(60), c TEXT(60), PRIMARY"))
        new, values = self.folder / "new.db", {("t", "c"): Text(ATTACK)}
        with mock.patch("piql.filling.filling_link", lambda path, program: FileLink(path, program, 5.0)):
            rebuild(str(self.folder / "store.db"), str(new), schema, io.StringIO(), values, program=RECORDING)
        self.assertEqual(self.statements()[-1], b"INSERT INTO t VALUES (%b, 'b', %b);" % (text, text))


class ServerTest(PipeCase):
    """What reaches the engine behind a server."""

    def setUp(self) -> None:
        super().setUp()
        self.at = self.folder / "socket"
        words = [TOP / "bin/piql-serve", self.folder / "store.db", self.at, "--program", RECORDING]
        server = subprocess.Popen(words, stdout=subprocess.PIPE, stderr=subprocess.DEVNULL)
        self.addCleanup(server.communicate)
        self.addCleanup(server.terminate)
        assert server.stdout is not None
        server.stdout.readline()

    def test_values(self) -> None:
        with piql.connect(f"unix:{self.at}") as connection:
            self.sent()
            connection.execute(INSERT, (Number(7), Text(ATTACK), None))
        self.assertEqual(self.sent(), PLACES % (b"7", written(ATTACK), b"NULL"))

    def answered(self, text: bytes) -> bytes:
        """The kind of the frame that answers a statement, which is sent as it is."""
        with socket.socket(socket.AF_UNIX) as made:
            made.connect(str(self.at))
            read_frame(made)
            write_frame(made, STATEMENT, text)
            return read_frame(made)[0]

    def test_frames(self) -> None:
        source, whole = random.Random(62), []
        for _ in range(400):
            text = bytes(source.choices(b"'';;-- \n\ta\0", k=source.randrange(1, 12))) + source.choice([b"", b"a;"])
            answer = self.answered(text)
            self.assertEqual(answer == REPORT, is_one_piece(text), text)
            whole += [text] if answer == REPORT else []
        self.assertGreater(len(whole), 20)
        # The server itself asks for the definitions, once.
        self.assertEqual(self.sent(), b"".join([b"SHOW;", *whole]))


class PieceTest(unittest.TestCase):
    """The stand-in cuts as the driver does, so that what one takes for a statement is one for the other."""

    def test_cutting(self) -> None:
        source = random.Random(61)
        for _ in range(20_000):
            text = bytes(source.choices(b"'';;--- \n\ta", k=source.randrange(14)))
            cutter = Cutter()
            found = [piece for piece in map(cutter.take, text) if piece is not None]
            self.assertEqual(is_one_piece(text), found == [text] if text else False, text)

