"""The writes of one statement are made at once: what the store refuses changes nothing, and the store stays open."""

import random
import sqlite3
import unittest
from collections.abc import Sequence

from clusters import stores
from helpers import built, new_folder
from piql.changes import read_changes
from piql.connection import Connection
from piql.errors import Changed, IntegrityError, OperationalError
from piql.hosts import Backend, Fault, Guard, Host, HostLink, MemoryStore, Op, SqliteStore
from piql.hosts.backend import INTENT, Change
from piql.hosts.wire import FAILURE, Request, answer, sized

PIQL_HOST = built("piql_host")
# The longest key that a store for tests takes.
MOST = 800
KEYS = [b"\2a", b"\2a\0", b"\2b", b"\3", b"\3\xff", b"\5"]
MANY = [(b"\2" + number.to_bytes(2, "big"), b"v") for number in range(300)]
SCHEMA = """CREATE TABLE t (id INT, a TEXT(1000), PRIMARY KEY (id));
PREPARE by_a AS SELECT x.id FROM t AS x WHERE x.a = [1] ORDER BY x.id LIMIT 5;
"""


class Recording(MemoryStore):
    """A store in memory that notes what changes it, and refuses commits where it is told to."""

    def __init__(self) -> None:
        super().__init__()
        self.seen: list[object] = []
        self.refuses = False

    def write(self, key: bytes, guard: Guard, held: bytes, new: bytes | None) -> bool:
        self.seen.append((key, guard, new))
        return super().write(key, guard, held, new)

    def commit(self, intent: bytes, changes: Sequence[Change]) -> None:
        self.seen.append((intent, list(changes)))
        if self.refuses:
            raise Fault("it is too much")
        super().commit(intent, changes)


def write(key: bytes, guard: Guard, new: bytes | None) -> Request:
    """The request of a write."""
    head = bytes([guard, new is not None])
    return Request(Op.WRITE, 0, head + sized(key) + sized(b"") + (new or b""))


DONE = answer(b"\1")
PUT = write(INTENT, Guard.ABSENT, b"an intent")
FIRST, SECOND = write(b"\2a", Guard.ANY, b"1"), write(b"\3b", Guard.ANY, None)
REMOVAL = write(INTENT, Guard.ANY, None)


class KeptTest(unittest.TestCase):
    """What a host keeps of a statement."""

    def setUp(self) -> None:
        self.store = Recording()
        self.host = Host([self.store])

    def test_the_writes_of_a_statement_are_made_by_its_last_one(self) -> None:
        for request in (PUT, FIRST, SECOND):
            self.assertEqual(self.host.answer(request), DONE)
        self.assertEqual((self.store.seen, self.store.values), ([], {}))
        self.assertEqual(self.host.answer(REMOVAL), DONE)
        self.assertEqual(self.store.seen, [(b"an intent", [(b"\2a", b"1"), (b"\3b", None)])])
        self.assertEqual(self.store.values, {b"\2a": b"1"})
        self.assertEqual(self.host.calls[Op.WRITE], 4)

    def test_a_statement_that_is_refused_changes_nothing_and_the_next_one_is_made(self) -> None:
        self.store.refuses = True
        for request in (PUT, FIRST):
            self.assertEqual(self.host.answer(request), DONE)
        self.assertEqual(self.host.answer(REMOVAL), FAILURE)
        self.assertEqual((self.store.values, self.host.why), ({}, "it is too much"))
        self.store.refuses = False
        for request in (PUT, FIRST, REMOVAL):
            self.assertEqual(self.host.answer(request), DONE)
        self.assertEqual(self.store.values, {b"\2a": b"1"})

    def test_whatever_else_is_asked_between_sees_what_was_answered(self) -> None:
        for other in (Request(Op.GET, 0, b"\2a"), write(b"\2c", Guard.ABSENT, b"3"), write(INTENT, Guard.ANY, b"4")):
            with self.subTest(other):
                self.setUp()
                for request in (PUT, FIRST, other):
                    self.host.answer(request)
                self.assertEqual(self.store.values[b"\2a"], b"1")
                self.assertIn(INTENT, self.store.values)

    def test_an_opening_that_makes_an_intent_whole_writes_each_change(self) -> None:
        MemoryStore.write(self.store, INTENT, Guard.ANY, b"", b"an intent")
        for request in (FIRST, REMOVAL):
            self.assertEqual(self.host.answer(request), DONE)
        self.assertEqual(self.store.seen, [(b"\2a", Guard.ANY, b"1"), (INTENT, Guard.ANY, None)])

    def test_over_several_stores_each_write_is_made_as_it_comes(self) -> None:
        host = Host([self.store, MemoryStore()], [b"", b"m"])
        host.answer(PUT)
        self.assertEqual(self.store.seen, [(INTENT, Guard.ABSENT, b"an intent")])

    def test_where_an_intent_stands_nothing_is_made(self) -> None:
        MemoryStore.write(self.store, INTENT, Guard.ANY, b"", b"another one")
        for request in (PUT, FIRST):
            self.host.answer(request)
        self.assertEqual(self.host.answer(REMOVAL), FAILURE)
        self.assertEqual(self.store.values, {INTENT: b"another one"})


class Pairs(Backend):
    """A store with the four calls alone, which fails at one of its writes."""

    def __init__(self, fails_at: int) -> None:
        self.under, self.left = MemoryStore(), fails_at

    def get(self, key: bytes) -> bytes | None:
        return self.under.get(key)

    def range(self, low: bytes, high: bytes, limit: int) -> list[tuple[bytes, bytes]]:
        return self.under.range(low, high, limit)

    def count(self, low: bytes, high: bytes, cap: int) -> int:
        return self.under.count(low, high, cap)

    def write(self, key: bytes, guard: Guard, held: bytes, new: bytes | None) -> bool:
        self.left -= 1
        if self.left < 0:
            raise Fault("it is gone")
        return self.under.write(key, guard, held, new)


class CommitTest(unittest.TestCase):
    """The commits of stores, compared with a dictionary."""

    def check(self, store: Backend, chance: random.Random, times: int) -> None:
        pairs = dict[bytes, bytes]()
        for _ in range(times):
            # Some keys come twice: the last change of each counts.
            keys = chance.choices(KEYS, k=chance.choice([1, 5, 200]))
            changes = [(key, chance.choice([None, b"", b"x", b"\0y"])) for key in keys]
            store.commit(b"an intent", changes)
            for key, new in changes:
                pairs.pop(key, None)
                if new is not None:
                    pairs[key] = new
            self.assertEqual(store.range(b"", b"\xff", 100), sorted(pairs.items()))

    def test_changes_at_random(self) -> None:
        for kind, make in stores(self):
            with self.subTest(kind):
                store = make()
                store.begin()
                self.check(store, random.Random(3), 20)
                store.close()

    def test_more_changes_than_a_transaction_of_etcd_has(self) -> None:
        for kind, make in stores(self):
            with self.subTest(kind):
                store = make()
                store.begin()
                store.commit(b"an intent", MANY)
                self.assertEqual(store.range(b"", b"\xff", 1000), MANY)
                store.close()

    def test_beside_an_intent_nothing_is_made(self) -> None:
        for kind, make in stores(self):
            with self.subTest(kind):
                store = make()
                store.begin()
                store.write(INTENT, Guard.ANY, b"", b"another one")
                for changes in (MANY[:1], MANY):
                    self.assertRaises(Fault, store.commit, b"an intent", changes)
                self.assertEqual(store.range(b"", b"\xff", 9), [(INTENT, b"another one")])
                store.close()

    def test_a_store_with_the_four_calls_alone_leaves_the_intent_until_all_is_made(self) -> None:
        changes = [(b"\2a", b"1"), (b"\2b", b"2")]
        for fails_at in range(5):
            store = Pairs(fails_at)
            if fails_at < 4:
                self.assertRaises(Fault, store.commit, b"an intent", changes)
            else:
                store.commit(b"an intent", changes)
            made = dict(changes[: max(0, fails_at - 1)])
            self.assertEqual(store.under.values, made | ({INTENT: b"an intent"} if 0 < fails_at < 4 else {}))


class ShortKeys(SqliteStore):
    """A file that refuses long keys, as the index of a database may."""

    def changed(self, key: bytes, guard: Guard, held: bytes, new: bytes | None) -> sqlite3.Cursor:
        if len(key) > MOST:
            raise Fault("the key is too long")
        return super().changed(key, guard, held, new)


@unittest.skipUnless(PIQL_HOST, "crates/piql_host is not built")
class RefusedTest(unittest.TestCase):
    """The engine over a store that refuses long keys: the statement fails, and nothing else."""

    def setUp(self) -> None:
        store = ShortKeys(str(new_folder(self) / "store.db"))
        self.connection = Connection(HostLink("the store", store, PIQL_HOST))
        self.addCleanup(self.connection.close)
        self.connection.cursor().executescript(SCHEMA)
        self.connection.execute("INSERT INTO t VALUES (?, ?)", (1, "short"))

    def refuse(self, statement: str, values: tuple[object, ...]) -> None:
        with self.assertRaisesRegex(OperationalError, "the key is too long") as caught:
            self.connection.execute(statement, values)
        self.assertEqual(caught.exception.status, 5)

    def rows(self, text: str) -> list[tuple[object, ...]]:
        return self.connection.execute("RUN by_a (?)", (text,)).fetchall()

    def test_what_is_too_long_for_the_store_changes_nothing(self) -> None:
        # The key of the row is short, that of its entry isn't.
        text = "x" * MOST
        self.refuse("INSERT INTO t VALUES (?, ?)", (2, text))
        self.refuse("UPDATE t SET a = ? WHERE id = ?", (text, 1))
        self.assertEqual((self.rows(text), self.rows("short")), ([], [(1,)]))
        self.connection.execute("INSERT INTO t VALUES (?, ?)", (2, "other"))
        self.connection.execute("DELETE FROM t WHERE id = ?", (1,))
        self.assertEqual((self.rows("short"), self.rows("other")), ([], [(2,)]))


BATCHES = """CREATE TABLE g (a INT, b INT, PRIMARY KEY (a, b), CARDINALITY LIMIT 2 (b));
CREATE COUNTER of_b OF g (b);
CREATE TABLE n (a INT, PRIMARY KEY (a));
"""
INSERT, DELETE = "INSERT INTO g VALUES (?, ?)", "DELETE FROM g WHERE a = ? AND b = ?"
# What a batch changes whose writes insert (1, 5) and (2, 5) and delete (1, 5): rows, entries, and the group's number.
ONE, TWO = (bytes.fromhex(f"10800000000000000{number}") for number in (1, 2))
FIVE = bytes.fromhex("108000000000000005")
CHANGES = {
    b"\2\1" + ONE + FIVE: None,
    b"\3\1\1" + FIVE + ONE: None,
    b"\2\1" + TWO + FIVE: bytes.fromhex("0200000000000000020000000000000005"),
    b"\3\1\1" + FIVE + TWO: b"",
    b"\5\0\2" + FIVE: (1).to_bytes(8),
}


class Breaking(SqliteStore):
    """A file that fails at one of its changes, and notes what is asked of it."""

    def __init__(self, path: str) -> None:
        super().__init__(path)
        self.texts: list[str] = []
        self.left: int | None = None

    def run(self, text: str, *values: object) -> sqlite3.Cursor:
        self.texts.append(text.split()[0])
        return super().run(text, *values)

    def changed(self, key: bytes, guard: Guard, held: bytes, new: bytes | None) -> sqlite3.Cursor:
        if self.left is not None:
            self.left -= 1
            if self.left < 0:
                raise Fault("it is gone")
        return super().changed(key, guard, held, new)


@unittest.skipUnless(PIQL_HOST, "crates/piql_host is not built")
class BatchTest(unittest.TestCase):
    """A batch is one commit of a store, and one transaction of a file: all of it is made or nothing."""

    def open(self, store: Backend) -> Connection:
        connection = Connection(HostLink("the store", store, PIQL_HOST))
        self.addCleanup(connection.close)
        connection.cursor().executescript(BATCHES)
        return connection

    def insert_two_and_delete_one(self, connection: Connection) -> int:
        with connection.batch() as batch:
            batch.execute(INSERT, (1, 5))
            batch.execute(INSERT, (2, 5))
            batch.execute(DELETE, (1, 5))
        return batch.rowcount

    def refuse(self, connection: Connection) -> None:
        """Batches that are refused at their last write: by a key, a limit and a condition."""
        for error, number, last, values in (
            (IntegrityError, "E503", INSERT, (7, 9)),
            (IntegrityError, "E507", INSERT, (8, 9)),
            (Changed, "E511", f"{DELETE} IF b > 9", (7, 9)),
        ):
            with self.assertRaises(error) as caught, connection.batch() as batch:
                for row in ((7, 9), (6, 9)):
                    batch.execute(INSERT, row)
                batch.execute(last, values)
            self.assertEqual((caught.exception.number, caught.exception.place), (number, 3))

    def rows(self, connection: Connection) -> tuple[list[tuple[object, ...]], object]:
        """The rows of a group, and their number."""
        found = connection.execute("SELECT g.a FROM g WHERE g.b = 5").fetchall()
        return found, connection.execute("READ of_b (5)").fetchone()[0]

    def test_one_commit_in_memory(self) -> None:
        store = Recording()
        connection = self.open(store)
        store.seen.clear()
        self.refuse(connection)
        self.assertEqual(store.seen, [])
        self.assertEqual(self.insert_two_and_delete_one(connection), 3)
        ((intent, changes),) = store.seen
        self.assertEqual((dict(changes), len(changes)), (CHANGES, len(CHANGES)))
        self.assertEqual(read_changes(intent), CHANGES)
        self.assertEqual(self.rows(connection), ([(2,)], 1))

    def test_one_change_is_one_write(self) -> None:
        store = Recording()
        connection = self.open(store)
        store.seen.clear()
        connection.execute("BATCH INSERT INTO n VALUES (?), DELETE FROM n WHERE a = ?", (1, 1))
        self.assertEqual(store.seen, [(b"\2\2" + ONE, Guard.ANY, None)])

    def test_a_commit_that_fails_leaves_what_was_there(self) -> None:
        store = Recording()
        connection = self.open(store)
        pairs = dict(store.values)
        store.refuses = True
        with self.assertRaisesRegex(OperationalError, "it is too much"):
            self.insert_two_and_delete_one(connection)
        self.assertEqual(store.values, pairs)
        store.refuses = False
        self.insert_two_and_delete_one(connection)
        self.assertEqual(store.values, pairs | {key: new for key, new in CHANGES.items() if new is not None})

    def test_one_transaction_of_a_file(self) -> None:
        store = Breaking(str(new_folder(self) / "store.db"))
        connection = self.open(store)
        store.texts.clear()
        self.refuse(connection)
        self.assertEqual(set(store.texts), {"SELECT"})
        store.texts.clear()
        self.insert_two_and_delete_one(connection)
        begin, end = store.texts.index("BEGIN"), store.texts.index("COMMIT")
        # Before it are the questions alone, and in it one for an intent, and the changes.
        self.assertEqual((set(store.texts[:begin]), store.texts[end:]), ({"SELECT"}, ["COMMIT"]))
        self.assertEqual(sorted(store.texts[begin + 1 : end]), ["DELETE"] * 2 + ["INSERT"] * 3 + ["SELECT"])

    def test_a_file_that_fails_at_each_change_of_it(self) -> None:
        store = Breaking(str(new_folder(self) / "store.db"))
        connection = self.open(store)
        for left in range(len(CHANGES)):
            store.left = left
            with self.assertRaisesRegex(OperationalError, "it is gone") as caught:
                self.insert_two_and_delete_one(connection)
            self.assertEqual(caught.exception.status, 5)
            store.left = None
            self.assertEqual(self.rows(connection), ([], 0))
        self.insert_two_and_delete_one(connection)
        self.assertEqual(self.rows(connection), ([(2,)], 1))


if __name__ == "__main__":
    unittest.main()
