"""Tests of what trials/batches compares the engine with, on examples that were worked out by hand."""

import pathlib
import random
import sys
import unittest

TOP = pathlib.Path(__file__).resolve().parents[3]
sys.path[:0] = [str(TOP / "drivers/python"), str(TOP / "trials"), str(TOP / "trials/batches")]

import lengths  # noqa: E402 - the trial stands beside the tests
from bounds import bound_of  # noqa: E402
from comparing import GREATEST  # noqa: E402
from drawn import TABLES, drawn_statement  # noqa: E402
from effects import Rows, no_rows, refused  # noqa: E402
from layouts import Made, tables_of  # noqa: E402
from pairs import changed_keys, length_of, pairs_of, row_code, row_key  # noqa: E402
from statements import Statement, Wanted, wanted  # noqa: E402
from piql.scripts import is_one_piece  # noqa: E402
from writes import Cond, Delete, Insert, Set, Update, add, key_of  # noqa: E402

FOLLOWERS = tables_of(
    [
        "CREATE TABLE users (name TEXT(16), city TEXT(16), PRIMARY KEY (name));",
        "CREATE TABLE subs (owner TEXT(16), target TEXT(16), approved BOOL, PRIMARY KEY (owner, target), "
        "CARDINALITY LIMIT 100 (owner), FOREIGN KEY (owner) REFERENCES users, FOREIGN KEY (target) REFERENCES users);",
        "CREATE TABLE thoughts (owner TEXT(16), ts INT, body TEXT(140), PRIMARY KEY (owner, ts), "
        "FOREIGN KEY (owner) REFERENCES users);",
    ]
)
COUNTED = tables_of([*FOLLOWERS.texts[:2], "CREATE COUNTER followers OF subs (target);"])
GROUP = tables_of(["CREATE TABLE g (a INT, b INT, PRIMARY KEY (a, b), CARDINALITY LIMIT 2 (a));"])
PLAIN = tables_of(
    ["CREATE TABLE m (id INT, v INT NULL, PRIMARY KEY (id));", "ALTER TABLE m ADD COLUMN w INT DEFAULT 5;"]
)
CAT = Insert("users", ("cat", "oslo"))
SUB = Insert("subs", ("ann", "cat", True))
MOVE = Update("users", (("name", "cat"),), (Set("city", "lima"),), (Cond("city", "=", "oslo"),))
NO_CAT = Delete("users", (("name", "cat"),))
NO_SUB = Delete("subs", (("owner", "ann"), ("target", "cat")))


def at(key: int) -> tuple[tuple[str, int], ...]:
    return (("id", key),)


class BatchTest(unittest.TestCase):
    """Batches on users and their subscriptions, and on a group with a limit."""

    def setUp(self) -> None:
        self.rows = no_rows(FOLLOWERS) | {"users": {("ann",): ("ann", "rome"), ("bob",): ("bob", "rome")}}

    def end(self, *writes: object) -> str:
        """How a batch ends; its rows become those behind it."""
        found = wanted(FOLLOWERS, self.rows, Statement(writes))  # type: ignore[arg-type]
        self.rows = found.rows
        return f"{' '.join(found.refusal) or 'ok'} bound {found.bound}"

    def test_users(self) -> None:
        self.assertEqual(self.end(CAT, SUB, MOVE), "ok bound 12 105")
        self.assertEqual(self.rows["users"]["cat",], ("cat", "lima"))
        self.assertEqual(self.end(CAT, SUB, MOVE), "E513 1 E503 users bound 12 105")
        self.assertEqual(self.end(NO_CAT, NO_SUB), "E513 1 E506 subs 2 bound 10 5")
        self.rows = self.rows | {"subs": self.rows["subs"] | {("bob", "cat"): ("bob", "cat", True)}}
        self.assertEqual(self.end(NO_SUB, NO_CAT), "E513 2 E506 subs 2 bound 10 8")
        del self.rows["subs"]["bob", "cat"]
        self.assertEqual(self.end(NO_SUB, NO_CAT), "ok bound 10 8")
        self.assertEqual(self.rows["subs"], {})

    def test_a_group(self) -> None:
        rows, inserts = no_rows(GROUP), [Insert("g", (1, b)) for b in (1, 2, 3)]
        full = wanted(GROUP, rows, Statement(tuple(inserts)))
        self.assertEqual((full.refusal, full.bound), (("E513", "3", "E507", "g", "1", "2"), (11, 9)))
        two = wanted(GROUP, rows, Statement(tuple(inserts[:2]))).rows
        out, new = Delete("g", (("a", 1), ("b", 1))), Insert("g", (1, 3))
        exchanged = wanted(GROUP, two, Statement((out, new)))
        self.assertEqual((exchanged.refusal, exchanged.bound, set(exchanged.rows["g"])), ((), (7, 5), {(1, 2), (1, 3)}))
        both = Insert("g", (5, 5)), Delete("g", (("a", 5), ("b", 5)))
        self.assertEqual((bound_of(GROUP, both), wanted(GROUP, two, Statement(both)).rows), ((7, 4), two))

    def test_a_counter(self) -> None:
        rows = no_rows(COUNTED) | {"users": {(name,): (name, "") for name in ("ann", "bob", "cat")}}
        writes = tuple(Insert("subs", (name, "bob", True)) for name in ("ann", "cat"))
        found = wanted(COUNTED, rows, Statement(writes))
        self.assertEqual((found.refusal, found.bound), ((), (18, 208)))
        self.assertEqual(pairs_of(COUNTED, found.rows)[bytes.fromhex("05000310626f620001")].hex(), "0000000000000002")

    def test_sums_see_each_other(self) -> None:
        rows = no_rows(PLAIN) | {"m": {(1,): (1, 1, 5)}}
        writes = tuple(Update("m", at(1), (add("v", 2),), (Cond("v", "=", value),)) for value in (1, 3))
        found = wanted(PLAIN, rows, Statement(writes))
        self.assertEqual((found.refusal, found.bound, found.rows["m"][1,]), ((), (6, 2), (1, 5, 5)))


class WriteTest(unittest.TestCase):
    """Refusals by the row that is there."""

    def test_the_row_that_is_there(self) -> None:
        rows = no_rows(PLAIN) | {"m": {(1,): (1, 7, 5), (2,): (2, None, 5), (3,): (3, GREATEST, 5)}}
        for write, wanted_refusal in (
            (Update("m", at(9), (add("v", 1),), (Cond("v", "=", 1),)), ("E504", "m")),
            (Update("m", at(1), (add("v", 1),), (Cond("v", "=", 7), Cond("w", "<", 5))), ("E511", "m", "2")),
            (Update("m", at(2), (add("v", 1),), (Cond("v", "<>", 7),)), ("E511", "m", "1")),
            (Update("m", at(2), (add("v", 1),), (Cond("v", "IS NULL"),)), ("E514", "m", "v")),
            (Update("m", at(3), (Set("w", 1), add("v", 1))), ("E514", "m", "v")),
            (Update("m", at(3), (add("v", 0),)), None),
            (Delete("m", at(1), (Cond("v", "IS NULL"),)), ("E511", "m", "1")),
        ):
            self.assertEqual(refused(PLAIN, rows, write), wanted_refusal, write.text())

    def test_texts(self) -> None:
        write = Update("m", at(1), (add("v", -2), Set("w", None)), (Cond("v", ">=", 2), Cond("w", "IS NULL")))
        self.assertEqual(write.text(), "UPDATE m SET v ADD -2, w = NULL WHERE id = 1 IF v >= 2 AND w IS NULL")
        batch = f"BATCH {NO_SUB.text()}, INSERT INTO users VALUES ('cat', 'oslo');"
        self.assertEqual(Statement((NO_SUB, CAT)).text(), batch)


class BytesTest(unittest.TestCase):
    """Pairs, and the length of changes."""

    def test_pairs(self) -> None:
        rows = no_rows(COUNTED) | {"subs": {("ann", "bob"): ("ann", "bob", True)}}
        self.assertEqual(
            {key.hex(): value.hex() for key, value in pairs_of(COUNTED, rows).items()},
            {
                "020210616e6e000110626f620001": "030003616e6e0003626f6201",
                "03020110626f62000110616e6e0001": "",
                "05000310626f620001": "0000000000000001",
            },
        )

    def test_rows(self) -> None:
        table = PLAIN.by_name["m"]
        self.assertEqual(row_code(table, (1, 7, 5)).hex(), "02" + "0000000000000001" + "0000000000000007")
        self.assertEqual(row_code(table, (1, None, 6)).hex(), "4300000002" + "0000000000000001" + "0000000000000006")

    def test_an_index_of_a_query(self) -> None:
        texts = [*GROUP.texts, "PREPARE q AS SELECT g.a FROM g AS g ORDER BY g.b DESC LIMIT 3;"]
        table = tables_of(texts, [Made("g", (("b", True),))]).by_name["g"]
        self.assertEqual([(it.number, it.places, it.descends) for it in table.indexes], [(1, (1, 0), (True, False))])

    def test_lengths(self) -> None:
        self.assertEqual(length_of({b"\2\1k": b"abc", b"\3": None}), 2 + 4 + 3 + 1 + 4 + 3 + 4 + 1 + 1)
        big, texts = lengths.PLAIN, ("a" * 1000, "b" * 1000, "c" * 1000, "d" * 1000)
        rows = no_rows(big) | {"big": {(key,): (key, *texts, "e" * 77) for key in range(1, 256)}}
        writes = tuple(Update("big", at(key), (Set("e", "f" * 77),)) for key in range(1, 256))
        found = wanted(big, rows, Statement(writes))
        self.assertEqual((found.refusal, found.bound), (("E512", "1049582"), (512, 255)))
        found = wanted(big, rows, Statement(writes[:254]))
        self.assertEqual((found.refusal, found.bound), ((), (510, 254)))

    def test_the_last_byte(self) -> None:
        found = [(case.name, case.length - 1_048_576) for case in lengths.cases()]
        names = ("a row each", "a row twice", "a row that comes and goes")
        self.assertEqual(found, [(name, more) for name in names for more in (0, 1)])


class DrawnTest(unittest.TestCase):
    """Statements that are drawn."""

    def test_each_refusal_comes(self) -> None:
        chance, rows = random.Random(5), no_rows(TABLES)
        alone, behind = set(), set()
        for _ in range(2000):
            statement = drawn_statement(chance, rows)
            self.assertTrue(is_one_piece(statement.text().encode()))
            found = wanted(TABLES, rows, statement)
            self.check_changes(rows, statement, found)
            rows = found.rows
            if not statement.is_batch:
                alone.add(found.refusal[:1])
            elif found.refusal:
                behind.add((found.refusal[1] == "1", found.refusal[2]))
        codes = ("E503", "E504", "E505", "E506", "E507", "E511", "E514")
        self.assertEqual(alone, {(), *((code,) for code in codes)})
        self.assertEqual(behind, {(is_first, code) for is_first in (True, False) for code in codes})
        self.assertTrue(all(len(table) > 1 for table in rows.values()))

    def check_changes(self, rows: Rows, statement: Statement, found: Wanted) -> None:
        """The keys that a write changes are its own, and those whose pairs are other ones behind it."""
        if statement.is_batch or found.refusal:
            return
        write = statement.writes[0]
        table = TABLES.by_name[write.table]
        key = key_of(table, write)
        keys = changed_keys(table, key, rows[table.name].get(key), found.rows[table.name].get(key))
        before, behind = pairs_of(TABLES, rows), pairs_of(TABLES, found.rows)
        others = {it for it in before.keys() | behind.keys() if before.get(it) != behind.get(it)}
        self.assertEqual(keys, others | {row_key(table, key)})


if __name__ == "__main__":
    unittest.main()
