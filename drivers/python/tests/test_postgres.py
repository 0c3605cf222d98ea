"""Stores in PostgreSQL: what a range costs the server, and how a table of before is brought over."""

import contextlib
import io
import json
import time
import unittest
from typing import Any

from clusters import databases, needs_postgres, postgres_url
from lying import LyingServer, dribbling, silent
from piql.hosts import Count, Fault, Get, Guard, Held, Range, notices
from piql.hosts.postgres import PostgresStore
from piql.hosts.postgres_client import PostgresClient, Values
from piql.hosts.postgres_layout import LAYOUT, Layout, range_words, together_words
from piql.hosts.postgres_reading import PostgresReading
from piql.hosts.postgres_texts import RANGE, REMOVE_ALL, TOGETHER
from piql.hosts.urls import open_store

BEFORE = """
CREATE TABLE piql_pairs (k bytea PRIMARY KEY, v bytea NOT NULL);
CREATE TABLE piql_fence (
  one boolean PRIMARY KEY CHECK (one), owner text NOT NULL, epoch bigint NOT NULL, revision bigint NOT NULL,
  admitted boolean NOT NULL, until timestamptz NOT NULL) WITH (fillfactor = 10);
INSERT INTO piql_fence VALUES (true, 'a writer of before', 7, 40, true, '-infinity')
"""
ROWS = 5000
# What a key of more bytes than an index takes has in common with others.
SHARED = b"\2\1\x10" + b"a" * 2700
PAIRS = [(b"\2\2" + number.to_bytes(2, "big"), b"v") for number in range(9)]


class Killed(BaseException):
    """Stands for the end of the process."""


class Dying(PostgresClient):
    """A client whose process ends before or behind one of its statements."""

    def __init__(self, url: str, left: int, is_behind: bool) -> None:
        super().__init__(url, 5.0)
        self.left, self.is_behind = left, is_behind

    def run(
        self, text: str, values: Values = {}, until: float | None = None, seconds: float | None = None
    ) -> list[tuple[Any, ...]]:
        self.left -= 1
        if self.left == 0 and not self.is_behind:
            raise Killed
        found = super().run(text, values, until, seconds)
        if self.left == 0:
            raise Killed
        return found


def make_before() -> str:
    """The URL of a store whose tables are those of before, with some pairs."""
    url = postgres_url()
    client = PostgresClient(url, 5.0)
    client.run(BEFORE)
    for key, value in PAIRS:
        client.run("INSERT INTO piql_pairs VALUES (%(key)s, %(value)s)", {"key": key, "value": value})
    client.close()
    return url


def layout_of(url: str) -> Layout:
    """The tables of a store."""
    client = PostgresClient(url, 5.0)
    found = Layout(*client.run(LAYOUT)[0])
    client.close()
    return found


@needs_postgres
class BringingOverTest(unittest.TestCase):
    """A table of before, whose key is its primary key."""

    def setUp(self) -> None:
        self.url = make_before()
        notices.notice.cache_clear()

    def opened(self) -> tuple[PostgresStore, str]:
        """A store that is begun by a writer, and what was told on standard error."""
        store = PostgresStore(self.url, lease=0.2)
        self.addCleanup(store.close)
        time.sleep(0.3)
        with contextlib.redirect_stderr(io.StringIO()) as told:
            store.begin()
        return store, told.getvalue()

    def check(self, store: PostgresStore) -> None:
        """The pairs are there, and keys of any length go in."""
        self.assertEqual(store.range(b"", b"\xff", 99), PAIRS)
        self.assertTrue(store.write(SHARED, Guard.ABSENT, b"", b"new"))
        self.assertEqual(store.range(b"", b"\xff", 2), [(SHARED, b"new"), PAIRS[0]])
        layout = layout_of(self.url)
        self.assertTrue(layout.has_order and not layout.has_key)

    def test_the_next_writer_brings_it_over_and_says_so_once(self) -> None:
        store, told = self.opened()
        self.assertEqual(told.count("brought over"), 1)
        self.check(store)
        store.close()
        notices.notice.cache_clear()
        self.assertNotIn("brought over", self.opened()[1])

    def test_a_writer_that_is_killed_at_any_step(self) -> None:
        # Until a writer has made all its steps.
        for step in range(1, 100):
            for is_behind in (False, True):
                self.setUp()
                with self.subTest(step=step, is_behind=is_behind):
                    killed = PostgresStore(self.url, lease=0.2)
                    killed.client = Dying(self.url, step, is_behind)
                    with contextlib.redirect_stderr(io.StringIO()), contextlib.suppress(Killed):
                        killed.begin()
                    killed.client.close()
                    self.assertEqual(reading_of(self.url).range(b"", b"\xff", 99), PAIRS)
                    self.check(self.opened()[0])
            if killed.client.left > 0:
                self.assertGreater(step, 5)
                return

    def test_one_beside_a_store_of_today_in_another_schema(self) -> None:
        databases().ask(0, f"CREATE SCHEMA before; SET search_path = before; {BEFORE}")
        self.addCleanup(databases().ask, 0, "DROP SCHEMA before CASCADE")
        self.opened()[0].close()
        self.url += "?options=-c%20search_path%3Dbefore,public"
        reader = reading_of(self.url)
        self.assertTrue(reader.is_before)
        reader.close()
        store = self.opened()[0]
        self.assertTrue(store.write(SHARED, Guard.ABSENT, b"", b"new"))
        self.assertEqual(store.range(b"", b"\xff", 9), [(SHARED, b"new")])

    def test_a_writer_of_before_that_is_at_work_keeps_its_store(self) -> None:
        first = PostgresStore(self.url, lease=30)
        first.start()
        first.take()
        second = PostgresStore(self.url)
        self.assertRaises(Held, second.begin)
        self.assertTrue(layout_of(self.url).has_key)
        second.close()
        first.client.close()

    def test_readers_before_and_behind_it(self) -> None:
        reader = reading_of(self.url)
        self.addCleanup(reader.close)
        self.assertEqual((reader.get(PAIRS[1][0]), reader.count(b"", b"\xff", 5)), (b"v", 5))
        self.assertEqual(reader.range(b"", b"\xff", 2), PAIRS[:2])
        reader.client.close()
        store = self.opened()[0]
        self.check(store)
        reader.pin(store.revision)
        self.assertEqual(reader.range(b"", b"\xff", 2), [(SHARED, b"new"), PAIRS[0]])
        self.assertEqual((reader.get(SHARED), reader.get(SHARED + b"a")), (b"new", None))
        self.assertEqual(reader.count(SHARED, b"\xff", 5), 5)

    def test_a_reader_that_stands_in_the_way_is_told_of_and_what_was_begun_is_ended_by_the_next_writer(self) -> None:
        reader = reading_of(self.url)
        store = PostgresStore(self.url, lease=0.2, patience=1.0)
        with contextlib.redirect_stderr(io.StringIO()), self.assertRaisesRegex(Fault, "can't be brought over.*lock"):
            store.begin()
        store.close()
        layout = layout_of(self.url)
        self.assertTrue(layout.has_order and layout.has_key)
        self.assertEqual(reader.range(b"", b"\xff", 99), PAIRS)
        reader.close()
        self.check(self.opened()[0])


def reading_of(url: str) -> PostgresReading:
    """A reader that has taken a snapshot."""
    reader = PostgresReading(url)
    reader.pin()
    return reader


def scans(plan: dict[str, Any]) -> list[dict[str, Any]]:
    """The scans of the table of pairs in a plan."""
    below = [found for part in plan.get("Plans", []) for found in scans(part)]
    return below + ([plan] if plan.get("Relation Name") == "piql_pairs" and "Scan" in plan["Node Type"] else [])


@needs_postgres
class CostTest(unittest.TestCase):
    """What a statement has the server look at, by its own plan."""

    @classmethod
    def setUpClass(cls) -> None:
        cls.store = PostgresStore(postgres_url())
        cls.addClassCleanup(cls.store.close)
        cls.store.begin()
        pairs = [(b"\2" + number.to_bytes(4, "big"), b"v") for number in range(ROWS)]
        cls.store.commit(b"an intent", pairs + [(SHARED + bytes([n]), b"v") for n in range(50)])

    def looked_at(self, text: str, words: dict[str, object]) -> list[int]:
        """How many rows each scan of the table gave, or passed over."""
        told = self.store.client.run(f"EXPLAIN (ANALYZE, FORMAT JSON) {text}", self.store.words(**words))[0][0]
        plan = told if isinstance(told, list) else json.loads(told)
        found = scans(plan[0]["Plan"])
        for scan in found:
            self.assertEqual((scan["Node Type"], scan["Index Name"]), ("Index Scan", "piql_pairs_order"))
        return [
            (scan["Actual Rows"] + scan.get("Rows Removed by Filter", 0)) * scan["Actual Loops"] for scan in found
        ]

    def test_a_range_is_no_dearer_than_its_limit_and_the_keys_that_share_its_first_bytes(self) -> None:
        for is_analyzed in (False, True):
            if is_analyzed:
                self.store.client.run("ANALYZE piql_pairs")
            for most in (1, 10, 100):
                with self.subTest(most, is_analyzed=is_analyzed):
                    looked_at = self.looked_at(RANGE, range_words(b"\2\0", b"\3", most))
                    self.assertLessEqual(looked_at, [most + 1])
        # All of those that share them are looked at, for the server has to put them into order.
        self.assertEqual(self.looked_at(RANGE, range_words(SHARED, b"\3", 10)), [50])

    def test_a_round_looks_at_no_more_than_its_questions_do(self) -> None:
        keys = [Get(b"\2" + number.to_bytes(4, "big")) for number in range(0, 200, 2)]
        for is_analyzed in (False, True):
            if is_analyzed:
                self.store.client.run("ANALYZE piql_pairs")
            for asks, most in ((keys, 100), ([Range(b"\2\0", b"\3", 10), Count(b"\2\0", b"\3", 10)], 22)):
                with self.subTest(most, is_analyzed=is_analyzed):
                    [looked_at] = self.looked_at(TOGETHER, together_words(asks))
                    self.assertLessEqual(looked_at, most + len(asks))

    def test_a_commit_finds_what_it_removes_by_the_index(self) -> None:
        text = REMOVE_ALL.replace("USING fence, ", "USING ").replace(" AND admitted", "")
        gone = [b"\2" + number.to_bytes(4, "big") for number in (1, 3, 5)]
        self.assertEqual(self.looked_at(text, {"heads": gone, "digests": [b""] * 3}), [3])


@needs_postgres
class UrlTest(unittest.TestCase):
    """The words of libpq in a URL."""

    def test_a_database_has_several_stores_by_a_search_path(self) -> None:
        databases().ask(0, "CREATE SCHEMA IF NOT EXISTS shop")
        url = postgres_url("?options=-c%20statement_timeout%3D5s")
        stores = [open_store(url), open_store(url + "%20-c%20search_path%3Dshop")]
        for number, store in enumerate(stores):
            assert isinstance(store, PostgresStore)
            self.addCleanup(store.close)
            store.begin()
            self.assertEqual(store.client.run("SHOW statement_timeout"), [("5s",)])
            self.assertTrue(store.write(b"k", Guard.ABSENT, b"", b"%d" % number))
        self.assertEqual([store.get(b"k") for store in stores], [b"0", b"1"])
        databases().ask(0, "DROP SCHEMA shop CASCADE")


@needs_postgres
class SlowTest(unittest.TestCase):
    """Servers that answer slowly or not at all: a Fault, within the time that a call has."""

    def test_a_host_that_answered_is_asked_first_from_then_on(self) -> None:
        server = self.enterContext(LyingServer(silent))
        at = databases().url((0,)).partition("@")[2]
        client = PostgresClient(f"postgresql://piql@127.0.0.1:{server.port},{at}", 6.0)
        self.addCleanup(client.close)
        begun = time.monotonic()
        client.run("SELECT 1")
        self.assertGreater(time.monotonic() - begun, 1.5)
        client.close()
        asked = len(server.sockets)
        client.run("SELECT 1")
        self.assertEqual(len(server.sockets), asked)

    def test_a_server_that_dribbles_or_is_silent(self) -> None:
        for answer in (silent, dribbling(b"N" + b"R" * 99, 0.1)):
            server = self.enterContext(LyingServer(answer))
            url = f"postgresql://site@127.0.0.1:{server.port},127.0.0.1:{server.port}/site"
            for store, call in [(PostgresStore(url, patience=0.5), "begin"), (PostgresReading(url, 0.5), "pin")]:
                begun = time.monotonic()
                self.assertRaisesRegex(Fault, "took too long", getattr(store, call))
                self.assertLess(time.monotonic() - begun, 6.0)
                store.close()


if __name__ == "__main__":
    unittest.main()
