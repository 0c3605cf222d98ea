"""Hosts: the frames, backends in memory and in a file, and the links of runs whose store this process has."""

import contextlib
import io
import math
import random
import re
import shutil
import struct
import sys
import time
import unittest
from pathlib import Path
from unittest.mock import Mock

from helpers import TOP, built, make_folder, new_folder, piql
from lying import LyingServer, silent
from piql.errors import InterfaceError, InternalError, NotSupportedError, OperationalError
from piql.hosts import (
    Backend,
    BadRequest,
    Count,
    Fault,
    Get,
    Guard,
    Held,
    Host,
    HostLink,
    MemoryStore,
    NodesLink,
    Op,
    Pair,
    Range,
    ReaderLink,
    Reading,
    SqliteStore,
    Unreachable,
    notices,
    run,
    serve,
)
from piql.hosts.etcd import Fence, read_fence
from piql.hosts.etcd_client import Stored
from piql.hosts.etcd_reading import EtcdReading
from piql.hosts.postgres_client import places_of
from piql.hosts.urls import etcd_parts, is_url, options_of
from piql.hosts.wire import FAILURE, Request, answer, read_range, read_request, read_write

STUB = Path(__file__).with_name("stub_engine.py")
PIQL_HOST = built("piql_host")
PIQL_NODES = built("piql_nodes")
USED = re.compile(rb" used (\d+) (\d+)$", re.MULTILINE)
EXAMPLES = sorted((TOP / "examples").glob("*.piql"))


def sized(data: bytes) -> bytes:
    return struct.pack(">I", len(data)) + data


class FramesTest(unittest.TestCase):
    """The bytes of docs/HOST.md."""

    def test_requests(self) -> None:
        self.assertEqual(read_request(b"\1\x10\2key"), Request(Op.GET, 2, b"key"))
        self.assertEqual(read_range(struct.pack(">I", 7) + sized(b"low") + b"high"), (b"low", b"high", 7))
        body = b"\2\1" + sized(b"key") + sized(b"old") + b"new"
        self.assertEqual(read_write(body), (b"key", Guard.IS, b"old", b"new"))
        self.assertEqual(read_write(b"\0\0" + sized(b"key") + sized(b"")), (b"key", Guard.ANY, b"", None))

    def test_answers(self) -> None:
        self.assertEqual(answer(b"abc"), b"\0\0\0\5\1\1abc")
        self.assertEqual(FAILURE, b"\0\0\0\2\1\0")

    def test_what_is_no_request(self) -> None:
        for frame in (b"\2\x10\0", b"\1\5\0", b"\1\xff\0"):
            self.assertRaises(BadRequest, read_request, frame)
        for body in (b"", b"\3\1" + sized(b"") * 2, b"\0\2" + sized(b"") * 2, b"\0\1" + sized(b"key")[:-1]):
            self.assertRaises(BadRequest, read_write, body)
        for body in (b"", b"\0\0\0\1", b"\0\0\0\1" + b"\0\0\0\x09low"):
            self.assertRaises(BadRequest, read_range, body)

    def test_a_run_with_half_a_request(self) -> None:
        for frames in (b"\0\0", b"\0\0\0\3\1\x10", b"\0\0\0\2\1\x10", b"\1\0\0\1\1\x10"):
            with self.assertRaises(BadRequest):
                serve(Host([MemoryStore()]), io.BytesIO(frames), io.BytesIO(), lambda _: b"", lambda _: None)


class HostTest(unittest.TestCase):
    """Answers to calls, and what is counted."""

    def setUp(self) -> None:
        self.store = MemoryStore()
        self.host = Host([self.store], [b"", b"m"])

    def test_each_call(self) -> None:
        put = b"\1\1" + sized(b"k") + sized(b"") + b"v"
        self.assertEqual(self.host.answer(Request(Op.WRITE, 0, put)), answer(b"\1"))
        self.assertEqual(self.host.answer(Request(Op.WRITE, 0, put)), answer(b"\0"))
        self.assertEqual(self.host.answer(Request(Op.GET, 0, b"k")), answer(b"\1v"))
        self.assertEqual(self.host.answer(Request(Op.GET, 0, b"x")), answer(b"\0"))
        within = struct.pack(">I", 9) + sized(b"a") + b"z"
        found = b"\0\0\0\1" + sized(b"k") + sized(b"v")
        self.assertEqual(self.host.answer(Request(Op.RANGE, 0, within)), answer(found))
        self.assertEqual(self.host.answer(Request(Op.COUNT, 0, within)), answer(b"\0\0\0\1"))
        self.assertEqual(self.host.answer(Request(Op.PLACES, 0, b"")), answer(b"\0\0\0\2" + sized(b"") + sized(b"m")))
        self.assertEqual((self.host.calls.total(), self.host.entries, self.host.faults), (6, 3, 0))

    def test_a_call_without_an_answer(self) -> None:
        self.store.get = Mock(side_effect=Fault("gone"))  # type: ignore[method-assign]
        self.assertEqual(self.host.answer(Request(Op.GET, 0, b"k")), FAILURE)
        self.assertEqual((self.host.faults, self.host.why), (1, "gone"))

    def test_an_answer_that_is_too_long(self) -> None:
        self.store.values[b"k"] = bytes(1 << 26)
        self.assertEqual(self.host.answer(Request(Op.GET, 0, b"k")), FAILURE)

    def test_a_node_that_isnt_there(self) -> None:
        self.assertRaises(BadRequest, self.host.answer, Request(Op.GET, 1, b"k"))


class BackendTest(unittest.TestCase):
    """Calls at random, compared with a dictionary."""

    def check(self, store: Backend, seed: int) -> None:
        chance, pairs = random.Random(seed), dict[bytes, bytes]()
        keys = [b"", b"\0", b"\0\0", b"a", b"a\0", b"ab", b"b", b"\xff", b"\xff\xff"]
        values = [b"", b"x", b"\0y", b"zz"]
        for _ in range(400):
            key, new = chance.choice(keys), chance.choice([None, *values])
            guard, held = chance.choice(list(Guard)), chance.choice(values)
            found = pairs.get(key)
            holds = {Guard.ANY: True, Guard.ABSENT: found is None, Guard.IS: found == held}[guard]
            self.assertIs(store.write(key, guard, held, new), holds)
            if holds and new is None:
                pairs.pop(key, None)
            elif holds and new is not None:
                pairs[key] = new
            low, high, most = chance.choice(keys), chance.choice(keys), chance.randrange(6)
            within = sorted(pair for pair in pairs.items() if low <= pair[0] < high)[:most]
            self.assertEqual(store.range(low, high, most), within)
            self.assertEqual(store.count(low, high, most), len(within))
            self.assertEqual(store.get(key), pairs.get(key))
            asks = [Get(key), Range(low, high, most), Count(low, high, most), Get(high)]
            self.assertEqual(store.together(asks), [pairs.get(key), within, len(within), pairs.get(high)])

    def test_memory(self) -> None:
        for seed in range(5):
            self.check(MemoryStore(), seed)

    def test_sqlite(self) -> None:
        for seed in range(5):
            store = SqliteStore(str(new_folder(self) / "store.db"))
            store.begin()
            self.check(store, seed)
            store.close()

    def test_the_backend_of_the_document(self) -> None:
        found: dict[str, type[Backend]] = {}
        exec((TOP / "docs/scripts/backend.py").read_text(), found)
        for seed in range(5):
            self.check(found["Pairs"](), seed)

    def test_a_file_is_locked_and_stays(self) -> None:
        path = str(new_folder(self) / "store.db")
        first, second = SqliteStore(path), SqliteStore(path)
        first.begin()
        self.assertRaises(Held, second.begin)
        first.write(b"k", Guard.ANY, b"", b"v")
        first.close()
        second.begin()
        self.assertEqual(second.get(b"k"), b"v")
        second.close()
        self.assertRaises(Fault, second.get, b"k")

    def test_a_file_that_is_none(self) -> None:
        path = new_folder(self) / "store.db"
        path.write_bytes(b"text" * 1000)
        self.assertRaises(Fault, SqliteStore(str(path)).begin)


class Slow(MemoryStore):
    """A store whose calls take a second."""

    def get(self, key: bytes) -> bytes | None:
        time.sleep(1)
        return None


class Large(MemoryStore):
    """A store with a value that is longer than what a pipe holds."""

    def get(self, key: bytes) -> bytes | None:
        return bytes(360_000)


class Lost(MemoryStore):
    """A store that another has for a while, and that can be lost between two statements."""

    held, is_lost, begun, closed = 0, False, 0, 0

    def begin(self) -> None:
        self.begun += 1
        self.is_lost = False
        if self.held > 0:
            self.held -= 1
            raise Held("somebody has it")

    def is_begun(self) -> bool:
        return not self.is_lost

    def close(self) -> None:
        self.closed += 1


class Pinned(Reading):
    """A reading of a store in memory, as it is when it is pinned."""

    def __init__(self, store: MemoryStore) -> None:
        self.store, self.seen = store, MemoryStore()
        self.pins: list[int] = []

    def pin(self, least: int = 0) -> None:
        self.pins.append(least)
        self.seen = MemoryStore()
        for key in self.store.keys:
            self.seen.write(key, Guard.ANY, b"", self.store.values[key])
        self.definitions = self.seen.count(b"\1", b"\2", 257)

    def get(self, key: bytes) -> bytes | None:
        return self.seen.get(key)

    def range(self, low: bytes, high: bytes, limit: int) -> list[Pair]:
        return self.seen.range(low, high, limit)

    def count(self, low: bytes, high: bytes, cap: int) -> int:
        return self.seen.count(low, high, cap)


# An engine, and a store: each with the statement at which it stands still, and what is then told.
STANDING_STILL: list[tuple[type[Backend], bytes, str]] = [
    (MemoryStore, b"HANG;", "the engine stood still for 0.3 seconds, so the run was ended"),
    (Large, b"STUCK k;", "the engine stood still for 0.3 seconds, so the run was ended"),
    (Slow, b"GET k;", "more than 0.3 seconds, so the run was ended"),
]


class LinkTest(unittest.TestCase):
    """Links over a program that stands for the engine."""

    stub: str

    @classmethod
    def setUpClass(cls) -> None:
        folder = make_folder()
        cls.addClassCleanup(shutil.rmtree, folder, ignore_errors=True)
        program = folder / "engine"
        # By the interpreter itself, without what it needn't look for: each test begins some.
        program.write_text(f"#!{sys.executable} -SE\n{STUB.read_text()}")
        program.chmod(0o755)
        cls.stub = str(program)

    def link(self, store: Backend) -> HostLink:
        made = HostLink("the store", store, self.stub, 0.2)
        self.addCleanup(made.close)
        return made

    def test_statements_and_their_reports(self) -> None:
        link = self.link(MemoryStore())
        self.assertEqual(link.exchange(b"PUT key value;", False), "row 'b''\\x01'''\n1 ok rows 1 bound 0 0 used 0 0\n")
        self.assertIn("x01value", link.exchange(b"GET key;", True))
        long = "x" * 1000
        self.assertIn(long, link.exchange(f"ECHO {long};".encode(), True))
        self.assertEqual(link.revision, 1)

    def test_a_fault_of_the_store_ends_the_run_and_the_next_statement_begins_one(self) -> None:
        store = MemoryStore()
        link = self.link(store)
        store.get = Mock(side_effect=[Fault("no member answers"), b"v"])  # type: ignore[method-assign]
        with self.assertRaisesRegex(OperationalError, "^no member answers, so the run ended with status 5") as caught:
            link.exchange(b"GET k;", True)
        self.assertEqual(caught.exception.status, 5)
        self.assertIn("v", link.exchange(b"GET k;", True))

    def test_why_a_store_cant_be_opened_is_told_first(self) -> None:
        store = MemoryStore()
        store.range = Mock(side_effect=Fault("no room"))  # type: ignore[method-assign]
        told = "^no room, so the run ended with status 5. the store isn't open"
        with self.assertRaisesRegex(OperationalError, told) as caught:
            self.link(store).exchange(b"COUNT;", True)
        self.assertEqual(caught.exception.status, 5)

    def test_a_backend_that_fails_by_itself(self) -> None:
        store = MemoryStore()
        link = self.link(store)
        link.exchange(b"COUNT;", True)
        store.get = Mock(side_effect=[KeyError("a value"), b"v"])  # type: ignore[method-assign]
        with self.assertRaisesRegex(InternalError, "failed by itself .KeyError.") as caught:
            link.exchange(b"GET k;", True)
        self.assertNotIn("a value", str(caught.exception))
        self.assertIn("x01v", link.exchange(b"GET k;", True))
        for failing in (Mock(side_effect=TypeError("a value")), Mock(return_value=None)):
            other = self.link(MemoryStore())
            other.backends[0].range = failing  # type: ignore[method-assign]
            self.assertRaisesRegex(InternalError, "the store isn't open", other.begin)

    def test_a_call_takes_no_longer_than_a_step(self) -> None:
        server = self.enterContext(LyingServer(silent))
        for reader in (False, True):
            begun = time.monotonic()
            with self.assertRaisesRegex(OperationalError, "no member answers"):
                piql.connect(f"etcd://127.0.0.1:{server.port}/shop", program=self.stub, step=0.5, reader=reader)
            self.assertLess(time.monotonic() - begun, 6)

    def test_an_engine_that_ends(self) -> None:
        link = self.link(MemoryStore())
        with self.assertRaisesRegex(OperationalError, "made whole or not at all") as caught:
            link.exchange(b"EXIT 7;", False)
        self.assertEqual(caught.exception.status, 7)
        self.assertIn("1 ok", link.exchange(b"COUNT;", True))

    def test_what_stands_still_ends_the_run_and_the_next_statement_begins_one(self) -> None:
        for store, statement, told in STANDING_STILL:
            with self.subTest(statement):
                link = self.hurried(store())
                with self.assertRaisesRegex(OperationalError, told):
                    link.exchange(statement, statement.startswith(b"GET"))
                self.assertIn("1 ok", link.exchange(b"COUNT;", True))

    def hurried(self, store: Backend) -> HostLink:
        """A link whose first run has little time for a step; a second one has enough to begin on a slow machine."""
        link = self.link(store)
        link.begin().seconds = 0.3
        return link

    def test_what_is_no_request_ends_the_run(self) -> None:
        link = self.link(MemoryStore())
        self.assertRaises(OperationalError, link.exchange, b"GARBAGE;", False)
        self.assertIn("1 ok", link.exchange(b"COUNT;", True))

    def test_a_store_that_another_has(self) -> None:
        store = Lost()
        store.held = 2
        self.assertIn("1 ok", self.link(store).exchange(b"COUNT;", True))
        self.assertEqual(store.begun, 3)
        other = Lost()
        other.held = 1000
        with self.assertRaisesRegex(OperationalError, "another engine has the store: somebody has it"):
            self.link(other).exchange(b"COUNT;", True)

    def test_servers_that_dont_answer_are_tried_until_the_time_is_over(self) -> None:
        store = MemoryStore()
        gone = Unreachable("no member answers")
        store.begin = Mock(side_effect=[gone, gone, None])  # type: ignore[method-assign]
        link = self.link(store)
        link.timeout = math.inf
        notices.notice.cache_clear()
        with contextlib.redirect_stderr(io.StringIO()) as told:
            self.assertIn("1 ok", link.exchange(b"COUNT;", True))
        self.assertEqual(told.getvalue(), "piql: the store isn't open yet: no member answers\n")
        other = self.link(MemoryStore())
        other.backends[0].begin = Mock(side_effect=gone)  # type: ignore[method-assign]
        with self.assertRaisesRegex(OperationalError, "isn't open: no member answers"):
            other.exchange(b"COUNT;", True)

    def test_a_store_that_was_lost_meanwhile_is_begun_anew(self) -> None:
        store = Lost()
        link = self.link(store)
        self.assertIn("1 ok", link.exchange(b"COUNT;", True))
        self.assertIn("2 ok", link.exchange(b"COUNT;", True))
        store.is_lost = True
        self.assertIn("1 ok", link.exchange(b"COUNT;", True))
        link.close()
        self.assertEqual((store.begun, store.closed), (2, 1))

    def test_a_reader(self) -> None:
        store = MemoryStore()
        reading = Pinned(store)
        link = ReaderLink("the store", reading, self.stub, 0.2)
        self.addCleanup(link.close)
        self.assertIn("1 ok", link.exchange(b"COUNT;", True))
        store.write(b"k", Guard.ANY, b"", b"v")
        self.assertRegex(link.exchange(b"COUNT;", True), r"\(1,\)[^\n]*\n2 ok")
        store.write(b"\1\0\1", Guard.ANY, b"", b"a definition")
        link.wait_for(2)
        self.assertRegex(link.exchange(b"COUNT;", True), r"\(2,\)[^\n]*\n1 ok")
        self.assertRaises(NotSupportedError, link.exchange, b"PUT k v;", False)
        self.assertEqual(set(reading.pins), {0, 2})
        with self.assertRaises(OperationalError) as caught:
            link.exchange(b"PUT k w;", True)
        self.assertEqual(caught.exception.status, 5)
        self.assertEqual(store.values[b"k"], b"v")

    def test_a_reader_whose_revision_is_gone_takes_another_while_there_is_time(self) -> None:
        reading = Pinned(MemoryStore())
        link = ReaderLink("the store", reading, self.stub, 60.0)
        self.addCleanup(link.close)
        gone = [Fault("compacted")] * 3
        reading.get = Mock(side_effect=[*gone, b"v"])  # type: ignore[method-assign]
        self.assertIn("x01v", link.exchange(b"GET k;", True))
        self.assertEqual(len(reading.pins), 4)
        link.timeout = 0.0
        reading.get.side_effect = gone
        with self.assertRaisesRegex(OperationalError, "^compacted, so the run ended with status 5"):
            link.exchange(b"GET k;", True)

    def test_nodes(self) -> None:
        link = NodesLink("nodes", [MemoryStore(), MemoryStore()], [b"", b"m"], self.stub)
        self.addCleanup(link.close)
        self.assertIn("1 ok", link.exchange(b"COUNT;", True))


class UrlTest(unittest.TestCase):
    """What names a store of a cluster."""

    def test_urls(self) -> None:
        self.assertEqual(etcd_parts("etcd://a:1,b/shop"), (["a:1", "b:2379"], "shop"))
        self.assertEqual(options_of("etcd://a/shop?lease=3"), ("etcd://a/shop", (3.0, 10.0, False)))
        kept = "postgresql://u@a,b:1/db?sslmode=require"
        self.assertEqual(options_of(kept + "&patience=2"), (kept, (10.0, 2.0, False)))
        self.assertTrue(is_url("postgresql://a/db"))
        self.assertFalse(is_url("etcd.db") or is_url("unix:etcd://x"))
        self.assertEqual(etcd_parts("etcd://[::1]/a"), (["[::1]:2379"], "a"))
        self.assertEqual(etcd_parts("etcd://[fe80::1]:5,b/a"), (["[fe80::1]:5", "b:2379"], "a"))

    def test_words_of_another_program_stay_as_they_are_written(self) -> None:
        words = "options=-c%20statement_timeout%3D5s&passfile=/a+b"
        self.assertEqual(options_of(f"postgresql://a/db?lease=3&{words}")[0], f"postgresql://a/db?{words}")
        self.assertEqual(options_of("postgresql://a/db?durability=two"), ("postgresql://a/db", (10.0, 10.0, True)))

    def test_hosts_of_a_database(self) -> None:
        words = {"user": "u", "host": "a,b", "port": "1,2"}
        self.assertEqual([(it["host"], it["port"]) for it in places_of(words)], [("a", "1"), ("b", "2")])
        self.assertEqual(places_of({"host": "a,b", "port": "5"})[1], {"host": "b", "port": "5"})
        self.assertEqual(places_of({"dbname": "d"}), [{"dbname": "d"}])

    def test_what_is_no_url(self) -> None:
        for url in ("etcd://a:1", "etcd:///shop", "etcd://a:x/shop", "etcd://a/shop/kv", "etcd://a/shop?leese=3"):
            self.assertRaises(InterfaceError, etcd_parts, url)
        for word in ("lease=long", "lease=0", "lease=-5", "patience=0", "patience=nan", "lease=1e3", "lease="):
            self.assertRaises(InterfaceError, options_of, f"etcd://a/shop?{word}")
        for url in ("etcd://[::1/a", "etcd://::1/a", "etcd://a:123456/a", "etcd://a,,b/a", "etcd://u:p@a/a"):
            self.assertRaises(InterfaceError, etcd_parts, url)
        self.assertRaises(InterfaceError, piql.connect, "site.db", reader=True)


class EtcdTest(unittest.TestCase):
    """What needs no cluster."""

    def test_fences(self) -> None:
        fence = Fence("vm:1:ab/c", 3, 4)
        self.assertEqual(fence.value(), b"vm:1:ab/c/3/4")
        self.assertEqual(read_fence(fence.value()), fence)
        self.assertEqual(len({fence.value(), fence.behind_write().value(), fence.next_turn().value()}), 3)

    def test_quiet_revisions(self) -> None:
        reading = EtcdReading(Mock(), "shop")
        first, second = Stored(b"\1\0\1", b"\1\0..", 5, 5), Stored(b"\1\0\2", b"\1\1..", 40, 40)
        filled = second._replace(value=b"\1\0..", changed=60)
        for intent, found, revision, definitions in [
            ([], [], 90, None),
            ([], [first], 90, (b"\1\0\1", 5)),
            ([Stored(b"\4", b"", 80, 80)], [first], 79, (b"\1\0\1", 5)),
            ([], [second, first], 39, (b"\1\0\1", 5)),
            ([], [filled, first], 90, (b"\1\0\2", 60)),
        ]:
            reading.take(90, intent, found)
            self.assertEqual((reading.revision, reading.definitions), (revision, definitions))


class EngineTest(unittest.TestCase):
    """The engine itself, where it is built."""

    def check(self, program: str, host: Host, path: Path) -> None:
        told = bytearray()
        status = run(program, host, io.BytesIO(path.read_bytes()).read, told.extend)
        wanted = path.with_suffix(".out").read_bytes()
        self.assertEqual(bytes(told), wanted)
        self.assertEqual(status, int(b" refused " in wanted))
        operations, entries = (sum(map(int, column)) for column in zip(*USED.findall(told)))
        self.assertEqual((host.entries, host.faults), (entries, 0))
        # Over several nodes one operation may be more calls than one.
        self.assertGreaterEqual(host.calls.total(), operations)
        if len(host.backends) == 1:
            self.assertEqual(host.calls.total(), operations)

    @unittest.skipUnless(PIQL_HOST, "crates/piql_host is not built")
    def test_examples_over_memory_and_a_file(self) -> None:
        assert PIQL_HOST is not None
        for path in EXAMPLES:
            file = SqliteStore(str(new_folder(self) / "store.db"))
            for store in (MemoryStore(), file):
                with self.subTest(path.stem, store=type(store).__name__):
                    store.begin()
                    self.check(PIQL_HOST, Host([store]), path)
            file.close()

    @unittest.skipUnless(PIQL_NODES, "crates/piql_nodes is not built")
    def test_examples_over_nodes(self) -> None:
        assert PIQL_NODES is not None
        for path in EXAMPLES:
            with self.subTest(path.stem):
                places = [b"", b"\2\0\1", b"\3\0\1\1"]
                self.check(PIQL_NODES, Host([MemoryStore() for _ in places], places), path)


if __name__ == "__main__":
    sys.exit(unittest.main())
