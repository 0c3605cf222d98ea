"""A look at a whole store: a sound one has no difference, and each kind of difference is told by its key alone."""

import contextlib
import io
import os
import shutil
import sqlite3
import subprocess
import sys
import tracemalloc
import unittest
from collections.abc import Iterator
from pathlib import Path
from unittest import mock

from helpers import TOP, make_folder, needs_file, new_folder, piql
from killing import make_store
from piql import verify as verifying
from piql.changes import read_changes
from piql.checks import merged
from piql.counting import counted
from piql.findings import Findings
from piql.hosts.backend import Fault, Guard, Pair, Reading
from piql.hosts.memory import MemoryStore
from piql.holding import held
from piql.keycodes import key_code
from piql.layout import layout_of
from piql.rowcodes import read_row
from piql.schema import Column
from piql.sources import FileSource, ReadingSource, Settled
from piql.stored import opened, pairs
from piql.verify import Verified, verify

# A table with all that its rows are asked for, and one that it refers to.
SCRIPT = """
CREATE TABLE towns (name TEXT(20), PRIMARY KEY (name));
CREATE TABLE people (id INT, town TEXT(30) NULL, ok BOOL NULL, PRIMARY KEY (id),
  CARDINALITY LIMIT 2 (town), FOREIGN KEY (town) REFERENCES towns);
CREATE COUNTER of_town OF people (town);
ALTER TABLE people ADD COLUMN karma INT DEFAULT 7;
PREPARE best AS SELECT p.id FROM people AS p WHERE p.ok = [1] ORDER BY p.karma DESC LIMIT 5;
INSERT INTO towns VALUES ('rome');
INSERT INTO towns VALUES ('oslo');
INSERT INTO people VALUES (1, 'rome', TRUE, 7);
INSERT INTO people VALUES (2, 'rome', NULL, 8);
INSERT INTO people VALUES (3, NULL, FALSE, -1);
"""
# Definitions, rows, entries and the one group of the counter.
PAIRS = 5 + 5 + 6 + 1


def key(space: str, *values: object, ends: str = "") -> bytes:
    """A key of a space in hexadecimal digits, and the code of values."""
    return bytes.fromhex(space) + key_code(values) + bytes.fromhex(ends)  # type: ignore[arg-type]


def row(number: int, town: str = "rome") -> bytes:
    """The code of a row that is in order, with the default of its last column."""
    return b"\x03" + number.to_bytes(8) + len(town).to_bytes(2) + town.encode() + b"\x01"


ONE, TWO, THREE = (key("0202", number) for number in (1, 2, 3))
ROME, OSLO = key("0201", "rome"), key("0201", "oslo")
TOWN_OF_ONE, TOWN_OF_TWO = key("030201", "rome", 1), key("030201", "rome", 2)
# The index of the query: ok, karma descending, id.
BEST_OF_ONE = key("030202", True, ends="10 7FFFFFFFFFFFFFF8") + key_code((1,))
IN_ROME = key("050003", "rome")
LACKING, SURPLUS = "a row asks for it, and it isn't there", "no row asks for it"
# What is put in place of a pair, or None where it is taken away; and what is told, by key.
CHANGES: list[tuple[dict[bytes, bytes | None], dict[bytes, str]]] = [
    ({BEST_OF_ONE: None}, {BEST_OF_ONE: LACKING}),
    ({BEST_OF_ONE: b"x"}, {BEST_OF_ONE: "its value isn't the one that rows ask for"}),
    ({key("030201", "oslo", 1): b""}, {key("030201", "oslo", 1): SURPLUS}),
    ({key("030209", "oslo", 1): b""}, {key("030209", "oslo", 1): SURPLUS}),
    ({b"\x03": b""}, {b"\x03": SURPLUS}),
    ({IN_ROME: b"\0" * 7 + b"\x03"}, {IN_ROME: "its value isn't the one that rows ask for"}),
    ({IN_ROME: None}, {IN_ROME: LACKING}),
    ({key("050003", "oslo"): b"\0" * 8}, {key("050003", "oslo"): SURPLUS}),
    ({key("050009", "oslo"): b"\0" * 7 + b"\1"}, {key("050009", "oslo"): SURPLUS}),
    ({OSLO: None}, {}),
    ({ROME: None}, {ONE: "its foreign key 1 names no row", TWO: "its foreign key 1 names no row"}),
    ({ONE: row(1, "x" * 31)}, {ONE: "column town has a text that is longer than its type"}),
    ({ONE: row(1)[:-1] + b"\x02"}, {ONE: "column ok has neither true nor false"}),
    ({ONE: row(1)[:-1]}, {ONE: "a row's code ends within a column"}),
    ({ONE: row(1) + b"x"}, {ONE: "a row's code goes on behind its last column"}),
    ({ONE: b"\x04" + row(1)[1:] + (7).to_bytes(8)}, {ONE: "a row's code ends with the default of karma"}),
    ({ONE: b"\x02" + row(1)[1:-1]}, {ONE: "a row of 2 columns, where the table has 4"}),
    ({ONE: row(1, "\0\0\0\0").replace(b"\0\0\0\0\1", b"\xff\xff\xff\xff\1")}, {ONE: "has a text that is no UTF-8"}),
    ({ONE: row(9)}, {ONE: "the row in it has another key"}),
    ({ONE: b""}, {ONE: "a row's code ends within a column"}),
    ({ONE: b"\x03" * 5000}, {ONE: "a row's code of 5000 bytes"}),
    ({key("0203", 1): b"\x01"}, {key("0203", 1): "no table has this number"}),
    ({b"\x02": b""}, {b"\x02": "no table has this number"}),
    ({b"\x06x": b""}, {b"\x06x": "a key that no run writes"}),
    ({b"": b""}, {b"": "a key that no run writes"}),
    ({b"\x04x": b""}, {b"\x04x": "a key that no run writes"}),
    ({b"\x04": b"\0\1"}, {b"\x04": "a list of changes ends within one"}),
    ({b"\x04": b"\0\1" + b"\0\0\0\1\1" + b"\0"}, {b"\x04": "a change of no row, no entry and no counter"}),
]
# Rows that come and what they ask for, so that one town has too many of them.
CROWDED: dict[bytes, bytes | None] = {
    key("0202", number): row(number) for number in (4, 5)
} | {key("030201", "rome", number): b"" for number in (4, 5)}
DEFINITIONS: list[tuple[dict[bytes, bytes | None], bytes, str]] = [
    ({b"\1\0\2": None}, b"\1\0\3", "no definition of this version, or not the next one"),
    ({b"\1\0\1": b"\3\0CREATE TABLE towns (name TEXT(20), PRIMARY KEY (name));"}, b"\1\0\1", "no definition of this"),
    ({b"\1\0\1": b"\1\1CREATE TABLE towns (name TEXT(20), PRIMARY KEY (name));"}, b"\1\0\2", "no definition of this"),
    ({b"\1\0\1": b"\1\0CREATE TABLE \xff"}, b"\1\0\1", "no definition of this version"),
    ({b"\1\0\1": b""}, b"\1\0\1", "no definition of this version"),
    ({b"\1\0\1": b"\1\0CREATE TABLE towns (name TEXT(2000), PRIMARY KEY (name));"}, b"\1\0\1", "refuses it: E206"),
    ({b"\1\0\1": b"\1\0CREATE TABLE towns (name text(20), PRIMARY KEY (name));"}, b"\1\0\1", "isn't canonical"),
    ({b"\1\0\6": b"\1\0PREPARE x; DELETE FROM towns;"}, b"\1\0\6", "the engine refuses it: no statement"),
    ({b"\1\0\6": b"\2\1ALTER TABLE towns ADD COLUMN n INT DEFAULT 0;"}, b"\1\0\6", "is no query that made an index"),
]
COLUMNS = (Column("a", "INT", None, False), Column("b", "TEXT", 9, True))


class Pinned(Reading):
    """The pairs of a file, as a cluster's store gives them at a revision."""

    def __init__(self, path: Path) -> None:
        self.pairs, self.pins, self.is_closed = MemoryStore(), 0, False
        with contextlib.closing(sqlite3.connect(path)) as file:
            for name, value in file.execute("SELECT k, v FROM kv"):
                self.pairs.write(name, Guard.ANY, b"", value)

    def pin(self, least: int = 0) -> None:
        self.pins += 1

    def get(self, key: bytes) -> bytes | None:
        return self.pairs.get(key)

    def range(self, low: bytes, high: bytes, limit: int) -> list[Pair]:
        return self.pairs.range(low, high, limit)

    def count(self, low: bytes, high: bytes, cap: int) -> int:
        return self.pairs.count(low, high, cap)

    def close(self) -> None:
        self.is_closed = True


class CodesTest(unittest.TestCase):
    """Codes by the tables of docs/FORMATS.md."""

    def test_keys(self) -> None:
        cases = {
            ("",): ("10 00 01", "10 FF FE"),
            ("ab",): ("10 61 62 00 01", "10 9E 9D FF FE"),
            ("a\0b",): ("10 61 00 FF 62 00 01", "10 9E FF 00 9D FF FE"),
            (-(2**63),): ("10 00 00 00 00 00 00 00 00", "10 FF FF FF FF FF FF FF FF"),
            (0,): ("10 80 00 00 00 00 00 00 00", "10 7F FF FF FF FF FF FF FF"),
            (True,): ("10 01", "10 FE"),
            (None,): ("08", "18"),
            ("a", None): ("10 61 00 01 08", "10 9E FF FE 18"),
        }
        for values, (ascending, descending) in cases.items():
            self.assertEqual(key_code(values), bytes.fromhex(ascending))
            self.assertEqual(key_code(values, [True] * len(values)), bytes.fromhex(descending))

    def test_marks_of_null(self) -> None:
        whole = b"\x42" + (2).to_bytes(4) + (7).to_bytes(8)
        self.assertEqual(read_row(COLUMNS, whole), (7, None))
        for marks in (0, 1, 3, 4, 6):
            with self.subTest(marks), self.assertRaises(piql.InternalError):
                read_row(COLUMNS, b"\x42" + marks.to_bytes(4) + (7).to_bytes(8))

    def test_changes(self) -> None:
        code = b"\0\2" + b"\0\0\0\2\2a" + b"\1\0\0\0\1x" + b"\0\0\0\2\3b" + b"\0"
        self.assertEqual(read_changes(code), {b"\2a": b"x", b"\3b": None})
        for wrong in (code + b"x", code[:-1], b"", b"\0", code.replace(b"\1\0\0\0\1x", b"\2\0\0\0\1x")):
            with self.subTest(wrong), self.assertRaises(piql.InternalError):
                read_changes(wrong)

    def test_merged(self) -> None:
        left, right = [(b"a", b"1"), (b"c", b"2"), (b"d", b"3")], [(b"b", b""), (b"c", b"9")]
        wanted = [(b"a", b"1", None), (b"b", None, b""), (b"c", b"2", b"9"), (b"d", b"3", None)]
        self.assertEqual(list(merged(iter(left), iter(right))), wanted)

    def test_a_cut_off_write_is_seen_through(self) -> None:
        store = MemoryStore()
        for name in (b"a", b"c", b"e"):
            store.values[name] = b"old"
            store.keys.append(name)
        changes: dict[bytes, bytes | None] = {b"b": b"new", b"c": b"new", b"e": None, b"f": b"new", b"x": b"new"}
        whole = Settled(ReadingSource(store), changes)  # type: ignore[arg-type]
        self.assertEqual(list(whole.range(b"a", b"g")), [(b"a", b"old")] + [(it, b"new") for it in (b"b", b"c", b"f")])

    def test_pages(self) -> None:
        store = MemoryStore()
        store.keys = [number.to_bytes(2) for number in range(2001)]
        store.values = dict.fromkeys(store.keys, b"")
        found = ReadingSource(store).range(b"", b"\xff\xff")  # type: ignore[arg-type]
        self.assertEqual([pair[0] for pair in found], store.keys)


@needs_file
class VerifyTest(unittest.TestCase):
    """Copies of one store, each changed by hand. Its definitions are asked of the engine once."""

    store: Path

    @classmethod
    def setUpClass(cls) -> None:
        folder = make_folder()
        cls.addClassCleanup(shutil.rmtree, folder, ignore_errors=True)
        cls.store = folder / "store.db"
        with piql.connect(cls.store) as connection:
            connection.cursor().executescript(SCRIPT)
        with contextlib.closing(sqlite3.connect(cls.store)) as file:
            texts = [value[2:].decode() for (value,) in file.execute("SELECT v FROM kv WHERE k < x'02' ORDER BY k")]
        cls.layout = layout_of(texts, False, None)

    def setUp(self) -> None:
        self.folder = new_folder(self)

    def changed(self, changes: dict[bytes, bytes | None]) -> Path:
        """A copy with some pairs changed."""
        path = self.folder / "changed.db"
        shutil.copyfile(self.store, path)
        with contextlib.closing(sqlite3.connect(path)) as file:
            for name, value in changes.items():
                file.execute("DELETE FROM kv WHERE k = ?", (name,))
                if value is not None:
                    file.execute("INSERT INTO kv VALUES (?, ?)", (name, value))
            file.commit()
        return path

    def found(self, path: Path) -> tuple[dict[str, str], Verified]:
        """What is told of a file, by the keys."""
        out, tell = io.StringIO(), io.StringIO()
        done = verify(str(path), out, tell)
        lines = out.getvalue().splitlines()
        self.assertEqual(lines.pop(), f"{counted(done.pairs, 'pair')}, {counted(done.differences, 'difference')}")
        self.noted = tell.getvalue()
        return {name: what for name, _, what in (line.partition(" ") for line in lines)}, done

    @contextlib.contextmanager
    def known(self) -> Iterator[None]:
        """The definitions are those of the store."""
        with mock.patch.object(verifying, "layout_of", return_value=self.layout):
            yield

    def test_a_sound_store(self) -> None:
        before = self.store.read_bytes()
        self.assertEqual(self.found(self.store), ({}, Verified(PAIRS, 0)))
        self.assertEqual(self.store.read_bytes(), before)

    def test_each_difference_is_told_by_its_key(self) -> None:
        for changes, wanted in CHANGES:
            with self.subTest(wanted), self.known():
                found, done = self.found(self.changed(changes))
                self.assertEqual(done.differences, len(found))
                for name, what in wanted.items():
                    self.assertIn(what, found.get(name.hex() or "-", ""), found)
                # Where a row can't be read, what belongs to it is asked for by no row.
                others = set(found) - {name.hex() or "-" for name in wanted}
                belongs = {name.hex() for name in (TOWN_OF_ONE, BEST_OF_ONE, IN_ROME)}
                self.assertEqual(others, belongs if ONE in changes else set(), found)

    def test_too_many_rows_of_a_limit(self) -> None:
        best = {key("030202", True, ends="10 7FFFFFFFFFFFFFF8") + key_code((number,)): b"" for number in (4, 5)}
        with self.known():
            found, _ = self.found(self.changed(CROWDED | best | {IN_ROME: b"\0" * 7 + b"\4"}))
        self.assertEqual(found, {ONE.hex(): "its limit 1 is 2, and 4 rows have its values"})

    def test_definitions(self) -> None:
        for changes, name, what in DEFINITIONS:
            with self.subTest(what):
                found, done = self.found(self.changed(changes))
                self.assertEqual((list(found), done.differences), ([name.hex()], 1))
                self.assertIn(what, found[name.hex()])
                self.assertIn("aren't looked at", self.noted)

    def test_an_index_that_is_being_filled(self) -> None:
        with contextlib.closing(sqlite3.connect(self.store)) as file:
            (ready,) = file.execute("SELECT v FROM kv WHERE k = x'010005'").fetchone()
        filling: dict[bytes, bytes | None] = {b"\1\0\5": b"\1\1" + ready[2:], BEST_OF_ONE: None}
        self.assertEqual(self.found(self.changed(filling))[0], {})
        self.assertIn("is being filled", self.noted)
        found, _ = self.found(self.changed(filling | {TOWN_OF_ONE: None, key("030202", True, 5, 5): b""}))
        self.assertEqual(found, {TOWN_OF_ONE.hex(): LACKING, key("030202", True, 5, 5).hex(): SURPLUS})

    def test_a_write_that_was_cut_off(self) -> None:
        new, entries = key("0202", 4), [key("030201", "oslo", 4), BEST_OF_ONE[:-8] + (4 + 2**63).to_bytes(8)]
        group = key("050003", "oslo"), b"\0" * 7 + b"\1"
        changes = [(new, row(4, "oslo")), (entries[0], b""), (entries[1], b""), group]
        code = len(changes).to_bytes(2)
        for name, value in changes:
            code += len(name).to_bytes(4) + name + b"\1" + len(value).to_bytes(4) + value
        with self.known():
            found, done = self.found(self.changed({b"\4": code, new: row(4, "oslo")}))
        self.assertEqual((found, done.pairs), ({}, PAIRS + 5))
        self.assertIn("a write was cut off", self.noted)

    def test_a_hundred_differences_are_told_and_all_are_counted(self) -> None:
        with self.known():
            found, done = self.found(self.changed({key("0203", number): b"" for number in range(150)}))
        self.assertEqual((len(found), done.differences), (100, 150))

    def test_no_value_is_told(self) -> None:
        town = "secrettown"
        changes = {ONE: row(1, town), TWO: row(2, town)[:-1], key("0203", 1): town.encode(), b"\4": town.encode()}
        with self.known():
            found, _ = self.found(self.changed(changes))
        self.assertNotIn(town, f"{found}{self.noted}")

    def test_who_reads_a_part_may_close_the_file(self) -> None:
        with contextlib.redirect_stderr(io.StringIO()) as told:
            with opened(str(self.store)) as file:
                first, all_pairs = pairs(file, 1), FileSource(file).range(b"", b"\xff")
                self.assertEqual(next(first), next(all_pairs))
            del first, all_pairs
        self.assertEqual(told.getvalue(), "")

    def test_what_is_no_pair_of_bytes(self) -> None:
        path = self.changed({})
        with contextlib.closing(sqlite3.connect(path)) as file:
            for name, value in (("text", b""), (5, b""), (None, b""), (b"\x02\x03", "text"), (b"\x02\x04", 5)):
                file.execute("INSERT INTO kv VALUES (?, ?)", (name, value))
            file.execute("CREATE TABLE other (a)")
            file.commit()
        with self.known():
            found, done = self.found(path)
        self.assertEqual(set(found), {b"text".hex(), b"5".hex(), "-", "0203", "0204"})
        self.assertEqual(done.differences, 8)

    def test_a_page_that_was_spoilt(self) -> None:
        names = [f"t{number:06}" for number in range(900)]
        path = self.changed({key("0201", name): b"\1\0\7" + name.encode() for name in names})
        whole = bytearray(path.read_bytes())
        whole[8192:12288] = bytes(4096)
        path.write_bytes(whole)
        with self.known():
            try:
                found, _ = self.found(path)
            except piql.OperationalError:
                return
        self.assertIn("SQLite", found["-"])

    def test_little_is_in_memory(self) -> None:
        names = [f"{number:020}" for number in range(10_000)]
        path = self.changed({key("0201", name): b"\1\0\x14" + name.encode() for name in names})
        with self.known():
            tracemalloc.start()
            found, done = self.found(path)
            peak = tracemalloc.get_traced_memory()[1]
            tracemalloc.stop()
        self.assertEqual((found, done.pairs), ({}, PAIRS + 10_000))
        self.assertLess(peak, 500_000)

    def test_a_revision_of_a_cluster(self) -> None:
        pinned = Pinned(self.changed({TOWN_OF_TWO: None}))
        with self.known(), mock.patch.object(verifying, "open_reading", return_value=pinned):
            out = io.StringIO()
            self.assertEqual(verify("etcd://a/b", out, io.StringIO()), Verified(PAIRS - 1, 1))
            self.assertEqual(out.getvalue().splitlines()[0], f"{TOWN_OF_TWO.hex()} {LACKING}")
            self.assertEqual((pinned.pins, pinned.is_closed), (1, True))
            for name in ("pin", "range"):
                with mock.patch.object(pinned, name, side_effect=Fault("no member answers")):
                    with self.assertRaisesRegex(piql.OperationalError, "no member answers"):
                        verify("etcd://a/b", out, io.StringIO())

    def test_a_file_that_somebody_has(self) -> None:
        path = self.changed({})
        with held(str(path)), mock.patch("piql.stored.WAIT", 0.0):
            with self.assertRaisesRegex(piql.OperationalError, "somebody has .* open .* by unix:SOCKET"):
                verify(str(path), io.StringIO(), io.StringIO())


@needs_file
class CommandTest(unittest.TestCase):
    """The command, and stores that scripts made."""

    def run_verify(self, *words: Path | str) -> subprocess.CompletedProcess[str]:
        environment = {**os.environ, "PYTHONPATH": str(TOP / "drivers/python")}
        given = [sys.executable, "-m", "piql", "verify", *words]
        return subprocess.run(given, env=environment, capture_output=True, text=True)

    def test_statuses(self) -> None:
        path = new_folder(self) / "store.db"
        for words, status in (([path], 5), ([], 2), (["etcd://"], 5), ([f"unix:{path}", "--folder", "/nowhere"], 5)):
            self.assertEqual(self.run_verify(*words).returncode, status, words)
        path.write_text("a text, and no database\n" * 900)
        self.assertEqual(self.run_verify(path).returncode, 5)
        path.unlink()
        make_store(path, {b"\x07": b""}, {b"\x08": b""})
        done = self.run_verify(path)
        lines = ["07 a key that no run writes", "08 a key that no run writes", "2 pairs, 2 differences"]
        self.assertEqual((done.returncode, done.stdout.splitlines()), (1, lines))

    def test_stores_of_the_examples_are_sound(self) -> None:
        folder = new_folder(self)
        for name in ("grown", "orders", "counted", "refused"):
            path = folder / f"{name}.db"
            with piql.connect(path) as connection:
                for text in (TOP / f"examples/{name}.piql").read_bytes().split(b";\n"):
                    with contextlib.suppress(piql.Error):
                        connection.execute(text.decode(errors="replace"))
            done = self.run_verify(path)
            self.assertEqual(done.returncode, 0, done.stdout + done.stderr)

    def test_a_server_goes_on(self) -> None:
        folder = new_folder(self)
        path, socket = folder / "store.db", folder / "socket"
        pipes = {"stdout": subprocess.PIPE, "stderr": subprocess.DEVNULL}
        with subprocess.Popen([TOP / "bin/piql-serve", path, socket], **pipes) as server:
            assert server.stdout is not None
            server.stdout.readline()
            try:
                with piql.connect(f"unix:{socket}") as connection:
                    connection.execute("CREATE TABLE t (a INT, PRIMARY KEY (a))")
                    done = self.run_verify(f"unix:{socket}", "--folder", folder)
                    self.assertEqual((done.returncode, done.stdout), (0, "1 pair, 0 differences\n"))
                    connection.execute("INSERT INTO t VALUES (1)")
            finally:
                server.terminate()
        self.assertEqual([it.name for it in folder.glob("piql-verify-*")], [])


class FindingsTest(unittest.TestCase):
    """Progress."""

    def test_progress_is_told_once_in_a_while(self) -> None:
        out, tell = io.StringIO(), io.StringIO()
        findings = Findings(out, tell)
        with mock.patch("time.monotonic", side_effect=[findings.told + it for it in (0.5, 1.5, 1.5, 2.0)]):
            self.assertEqual(len(list(findings.counted([(b"", b"")] * 3))), 3)
        self.assertEqual(tell.getvalue(), "2 pairs, 0 differences\n")
