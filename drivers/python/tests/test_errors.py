"""Whatever a caller gives, what is raised is one of the exceptions of PEP 249, and no message has a value."""

import unittest
from collections.abc import Callable
from pathlib import Path

from helpers import new_folder, piql
from pipes import RECORDING, PipeCase
from piql.engine import EngineEnded
from piql.errors import ended
from piql.statements import read_statement
from piql.values import quoted, read_literal

INSERT = "INSERT INTO t VALUES (?)"
MARKED = "marked-secret"
# Values that are none, each with its exception.
VALUES: list[tuple[object, type[piql.Error]]] = [
    (10**5000, piql.DataError),
    (-(10**5000), piql.DataError),
    (2**63, piql.DataError),
    ("\ud800", piql.DataError),
    (1.5, piql.ProgrammingError),
    (b"bytes", piql.ProgrammingError),
    ([], piql.ProgrammingError),
    (piql, piql.ProgrammingError),
]
STATEMENTS: list[tuple[object, type[piql.Error]]] = [
    (None, piql.ProgrammingError),
    (7, piql.ProgrammingError),
    (b"SHOW", piql.ProgrammingError),
    ("SELECT a FROM t WHERE b = '\ud800'", piql.ProgrammingError),
    ("SHOW \udfff", piql.ProgrammingError),
    ("", piql.ProgrammingError),
    ("SHOW; SHOW", piql.ProgrammingError),
    (f"RUN q ('{'x' * 70_000}')", piql.ProgrammingError),
]
PARAMETERS: list[object] = [None, 7, "a", b"a", {"a": 1}, {1}, (1, 2), (), iter([1]), 1.5]
DIGITS = "9" * 5000
PATHS: list[object] = [None, 7, b"a\0b", "a\0b", "", b"", "\ud800", 1.5, ["a"]]


class GivenTest(PipeCase):
    """Statements and values over a stand-in."""

    def refused(self, kind: type[piql.Error], run: Callable[[], object]) -> None:
        """Runs what has to raise just this."""
        with self.assertRaises(kind):
            run()

    def test_values(self) -> None:
        connection = self.open()
        for value, kind in VALUES:
            with self.subTest(kind=kind):
                self.refused(kind, lambda value=value: connection.execute(INSERT, (value,)))  # type: ignore[misc]
        for given in PARAMETERS:
            with self.subTest(given=given):
                self.refused(piql.ProgrammingError, lambda given=given: connection.execute(INSERT, given))
        self.assertEqual(self.sent(), b"")

    def test_statements(self) -> None:
        connection = self.open()
        cursor = connection.cursor()
        for text, kind in STATEMENTS:
            with self.subTest(text=str(text)[:20]):
                self.refused(kind, lambda text=text: cursor.execute(text))  # type: ignore[misc]
                self.refused(kind, lambda text=text: cursor.executemany(text, [()]))  # type: ignore[misc]
        for given in (None, 7, b"SHOW;", "SHOW \ud800;"):
            self.refused(piql.ProgrammingError, lambda given=given: cursor.executescript(given))  # type: ignore[misc]
            self.refused(piql.ProgrammingError, lambda given=given: cursor.callproc(given))  # type: ignore[misc]
        for given in (None, 7):
            self.refused(piql.ProgrammingError, lambda given=given: cursor.executemany(INSERT, given))  # type: ignore
        self.assertEqual(self.sent(), b"")

    def test_numbers_of_many_digits(self) -> None:
        connection = self.open()
        connection.execute(f"SELECT a FROM t WHERE b = -{DIGITS}")
        self.assertIn(DIGITS.encode(), self.sent())
        for text in (f"SELECT a FROM t WHERE b = [{DIGITS}]", "SELECT a FROM t WHERE b = [²]"):
            with self.assertRaises(piql.ProgrammingError):
                connection.execute(text, (1, 2))
        with self.assertRaises(piql.ProgrammingError):
            read_literal(DIGITS)

    def test_pages(self) -> None:
        cursor = self.open().execute("RUN q")
        for size in (-1, "2", 1.5):
            self.refused(piql.ProgrammingError, lambda size=size: cursor.fetchmany(size))  # type: ignore[misc]
        self.assertEqual(cursor.fetchmany(2), [])

    def test_paths(self) -> None:
        for path in PATHS:
            with self.subTest(path=path):
                self.refused(piql.InterfaceError, lambda path=path: piql.connect(path))  # type: ignore[misc]
                self.refused(piql.InterfaceError, lambda path=path: self.open().backup(path))  # type: ignore[misc]
        for path in ("unix:" + "x" * 200, "unix:/nowhere/at/all"):
            self.refused(piql.OperationalError, lambda path=path: piql.connect(path, timeout=0))  # type: ignore[misc]
        for program in (7, b"a\0b", str(self.folder), str(self.folder / "nothing")):
            with self.subTest(program=program), self.assertRaises(piql.InterfaceError):
                piql.connect(self.folder / "a.db", program=program)  # type: ignore[arg-type]

    def test_paths_that_are_taken(self) -> None:
        class Place:
            def __fspath__(self) -> str:
                return str(Path(new_place) / "place.db")

        new_place = new_folder(self)
        for number, path in enumerate((str(new_place / "a.db").encode(), new_place / "b.db", Place())):
            with self.subTest(number), piql.connect(path, program=RECORDING) as connection:  # type: ignore[arg-type]
                self.assertEqual(connection.execute("RUN q").fetchall(), [])
        self.assertEqual(sorted(it.name for it in new_place.iterdir()), ["a.db", "b.db", "place.db"])


class ModuleTest(unittest.TestCase):
    """Functions of the module."""

    def test_constructors(self) -> None:
        made: list[tuple[Callable[..., str], tuple[object, ...]]] = [
            (piql.Date, (2026, 13, 1)),
            (piql.Date, ("2026", 1, 1)),
            (piql.Date, ()),
            (piql.Time, (24, 0, 0)),
            (piql.Timestamp, (2026, 1, 1, 0, 0, 60)),
            (piql.DateFromTicks, (10**30,)),
            (piql.TimeFromTicks, ("now",)),
            (piql.TimestampFromTicks, (float("nan"),)),
            (piql.Binary, (5,)),
            (piql.Binary, ("text",)),
        ]
        for make, parts in made:
            with self.subTest(make.__name__, parts=parts), self.assertRaises(piql.DataError):
                make(*parts)
        for data, digits in ((b"\0\xff", "00ff"), (bytearray(b"a"), "61"), (memoryview(b"b"), "62")):
            self.assertEqual(piql.Binary(data), digits)  # type: ignore[arg-type]

    def test_bounds(self) -> None:
        place = new_folder(self) / "bounds.lock"
        with self.assertRaises(piql.OperationalError):
            piql.read_bounds(place)
        place.write_bytes(b"\xff")
        with self.assertRaises(piql.OperationalError):
            piql.read_bounds(place)
        for line in ("q 1", "q 1 2 3", "q one 2", f"q 1 {DIGITS}", "q -1 2"):
            place.write_text(f"# a comment\n{line}\n")
            with self.subTest(line[:20]), self.assertRaises(piql.ProgrammingError) as caught:
                piql.read_bounds(place)
            self.assertIn("line 2", str(caught.exception))
        place.write_text("# a comment\n\nq 1 2\n")
        self.assertEqual(piql.read_bounds(place), {"q": (1, 2)})


class MessageTest(unittest.TestCase):
    """No message has a value of a statement or of a row."""

    def told(self, run: Callable[[], object]) -> str:
        """What the exception says."""
        with self.assertRaises(piql.Error) as caught:
            run()
        return str(caught.exception)

    def test_values(self) -> None:
        tried: list[Callable[[], object]] = [
            lambda: quoted(987_654_321 * 10**20),
            lambda: read_statement(f"SHOW; RUN q ('{MARKED}')"),
            lambda: read_literal(f"{MARKED} 987654321"),
            lambda: read_statement(f"RUN q ('{MARKED}"),
        ]
        for run in tried:
            told = self.told(run)
            self.assertNotIn(MARKED, told)
            self.assertNotIn("987654321", told)

    def test_the_end_of_a_run(self) -> None:
        half = EngineEnded(-9, f"row '{MARKED}'\nrow '".encode())
        self.assertEqual((half.written, half.damaged), ("", None))
        for key, kind in (("0203616e6e", "a row of table 3"), ("01", "a definition"), ("0501ff", "a counter's group")):
            end = EngineEnded(6, f"row '{MARKED}'\ndamaged {key}\n".encode())
            error = ended(end.status, end.written, end.damaged)
            self.assertIsInstance(error, piql.InternalError)
            self.assertEqual(error.damaged, key)
            self.assertIn(kind, str(error))
            self.assertNotIn(key, str(error).replace("status 6", ""))
