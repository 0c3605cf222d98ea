"""The longest keys and values of the language over each store, and ranges of keys that share their first bytes."""

import random
import string
import unittest

from clusters import stores
from helpers import built
from piql.connection import Connection
from piql.errors import IntegrityError
from piql.hosts import Backend, Guard, HostLink

PIQL_HOST = built("piql_host")
LONG = b"\3\1\1" + b"\x10" + b"a" * 3000
# They are as long as what an index has of them, a little longer and shorter, and share their first bytes.
KEYS = [b"", b"\0", LONG, LONG[:2600], LONG[:2599], LONG[:2601], *(LONG + bytes([n]) for n in (0, 7, 254, 255))]
KEYS += [LONG[:2700] + b"b", LONG[:2599] + b"b", LONG[:2599] + b"b" * 9, LONG * 3, LONG + b"\0" * 5000, b"\xff" * 2601]

# Texts of 1,000 bytes: one whose bytes the code of a key doubles, and one that no database makes shorter.
TEXTS = ["\0" * 1000, "".join(random.Random(5).choices("\0" + string.ascii_letters + string.digits, k=1000))]
SCHEMA = """
CREATE TABLE parents (a TEXT(1000), b TEXT(1000), PRIMARY KEY (a, b));
CREATE TABLE t (a TEXT(1000), b TEXT(1000), c TEXT(1000), d TEXT(1000), n INT, PRIMARY KEY (a, b, c, d),
  CARDINALITY LIMIT 3 (b, c, d), FOREIGN KEY (a, b) REFERENCES parents);
CREATE COUNTER of_bcd OF t (b, c, d);
CREATE TABLE u (id INT, a TEXT(1000), b TEXT(1000), c TEXT(1000), PRIMARY KEY (id));
CREATE COUNTER of_abc OF u (a, b, c);
PREPARE by_abc AS SELECT y.id FROM u AS y WHERE y.a = [1] AND y.b = [2] AND y.c = [3] ORDER BY y.id LIMIT 5;
PREPARE by_dcba AS SELECT x.n FROM t AS x WHERE x.d = [1] AND x.c = [2] AND x.b = [3] ORDER BY x.a LIMIT 5;
"""
ALL = "RUN by_dcba (?, ?, ?)"
KEY = "a = ? AND b = ? AND c = ? AND d = ?"


class LongKeysTest(unittest.TestCase):
    """Calls at random with long keys, compared with a dictionary."""

    def check(self, store: Backend, chance: random.Random) -> None:
        pairs = dict[bytes, bytes]()
        for _ in range(150):
            key, new, guard = chance.choice(KEYS), chance.choice([None, b"x", b"y"]), chance.choice(list(Guard))
            found, held = pairs.get(key), chance.choice([b"x", b"y"])
            holds = {Guard.ANY: True, Guard.ABSENT: found is None, Guard.IS: found == held}[guard]
            self.assertIs(store.write(key, guard, held, new), holds)
            if holds:
                pairs.pop(key, None)
            if holds and new is not None:
                pairs[key] = new
            low, high, most = chance.choice(KEYS), chance.choice(KEYS), chance.randrange(6)
            within = sorted(pair for pair in pairs.items() if low <= pair[0] < high)[:most]
            self.assertEqual(store.range(low, high, most), within)
            self.assertEqual(store.count(low, high, most), len(within))
            self.assertEqual(store.get(key), pairs.get(key))

    def test_calls_at_random(self) -> None:
        for kind, make in stores(self):
            with self.subTest(kind):
                store = make()
                store.begin()
                self.check(store, random.Random(11))
                changes = [(key, b"z") for key in KEYS]
                store.commit(b"an intent", changes)
                self.assertEqual(store.range(b"", b"\xff" * 2602, 99), sorted(changes))
                store.commit(b"an intent", [(key, None) for key in KEYS])
                self.assertEqual(store.range(b"", b"\xff" * 2602, 99), [])
                store.close()


@unittest.skipUnless(PIQL_HOST, "crates/piql_host is not built")
class LongestTest(unittest.TestCase):
    """The longest keys that the language makes, in a table, a limit, a foreign key, a counter and an index."""

    def check(self, connection: Connection, text: str) -> None:
        connection.cursor().executescript(SCHEMA)
        tails = ["1", "2", "3", "4"]
        for tail in tails:
            connection.execute("INSERT INTO parents VALUES (?, ?)", (text[1:] + tail, text))
        for tail in tails[:3]:
            values = (text[1:] + tail, text, text, text, int(tail))
            connection.execute("INSERT INTO t VALUES (?, ?, ?, ?, ?)", values)
        for tail, number in (("1", "E503"), ("4", "E507"), ("5", "E505")):
            with self.assertRaises(IntegrityError) as caught:
                connection.execute("INSERT INTO t VALUES (?, ?, ?, ?, ?)", (text[1:] + tail, text, text, text, 9))
            self.assertEqual(caught.exception.number, number)
        rest = (text, text, text)
        self.assertEqual(connection.execute(ALL, rest).fetchall(), [(1,), (2,), (3,)])
        self.assertEqual(connection.execute("READ of_bcd (?, ?, ?)", rest).fetchone(), (3,))
        connection.execute(f"UPDATE t SET n = ? WHERE {KEY}", (7, text[1:] + "2", *rest))
        connection.execute(f"DELETE FROM t WHERE {KEY}", (text[1:] + "1", *rest))
        self.assertEqual(connection.execute(ALL, rest).fetchall(), [(7,), (3,)])
        self.assertEqual(connection.execute("READ of_bcd (?, ?, ?)", rest).fetchone(), (2,))
        with self.assertRaises(IntegrityError) as caught:
            connection.execute("DELETE FROM parents WHERE a = ? AND b = ?", (text[1:] + "2", text))
        self.assertEqual(caught.exception.number, "E506")
        # An index that is filled over the rows that are there.
        select = "SELECT x.n FROM t AS x WHERE x.b = ? AND x.n > ? ORDER BY x.n, x.d, x.c, x.a LIMIT 5"
        self.assertEqual(connection.execute(select, (text, 0)).fetchall(), [(3,), (7,)])

    def check_moved(self, connection: Connection, text: str) -> None:
        """Entries and groups with the longest keys are made, moved by an UPDATE, and taken away."""
        other = text[1:] + "0"
        connection.execute("INSERT INTO u VALUES (?, ?, ?, ?)", (1, text, text, text))
        connection.execute("INSERT INTO u VALUES (?, ?, ?, ?)", (2, text, text, text))
        connection.execute("UPDATE u SET a = ?, b = ?, c = ? WHERE id = ?", (other, other, other, 1))
        for values, wanted in (((text,) * 3, [(2,)]), ((other,) * 3, [(1,)])):
            self.assertEqual(connection.execute("RUN by_abc (?, ?, ?)", values).fetchall(), wanted)
            self.assertEqual(connection.execute("READ of_abc (?, ?, ?)", values).fetchone(), (1,))
        connection.execute("DELETE FROM u WHERE id = ?", (1,))
        self.assertEqual(connection.execute("READ of_abc (?, ?, ?)", (other,) * 3).fetchone(), (0,))

    def test_over_each_store(self) -> None:
        for text in TEXTS:
            for kind, make in stores(self):
                with self.subTest(kind, text=text[:9]):
                    with Connection(HostLink(kind, make(), PIQL_HOST), prepare=True) as connection:
                        self.check(connection, text)
                        self.check_moved(connection, text)
                    with Connection(HostLink(kind, make(), PIQL_HOST)) as connection:
                        self.assertEqual(connection.execute(ALL, (text, text, text)).fetchall(), [(7,), (3,)])


if __name__ == "__main__":
    unittest.main()
