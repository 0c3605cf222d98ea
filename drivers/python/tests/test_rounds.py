"""Several questions at once: the frames, what answers them, and each store's own way to ask them in one round."""

import io
import random
import struct
import unittest
import unittest.mock

from clusters import stores
from helpers import TOP, built
from piql.hosts import Ask, Backend, BadRequest, Count, Fault, Get, Guard, Host, MemoryStore, Op, Range, Told, run
from piql.hosts.rounds import HELLO, KNOWS_ROUNDS, read_gets, read_ranges, read_tests
from piql.hosts.wire import FAILURE, ROUNDS, Request, answer, number_body

PIQL_HOST = built("piql_host")
EXAMPLES = sorted((TOP / "examples").glob("*.piql"))

KEYS = [b"", b"\0", b"\0\0", b"a", b"a\0", b"ab", b"b", b"\xff", b"k" * 3000, b"k" * 3000 + b"\0"]


def sized(data: bytes) -> bytes:
    return number(len(data)) + data


def number(value: int) -> bytes:
    return struct.pack(">I", value)


# A test that the key is there, that it isn't, and that a range has as many pairs.
HAS, LACKS = b"\0" + sized(b"a"), b"\1" + sized(b"a")
FULL = b"\2" + number(2) + sized(b"a") + sized(b"c")
NO_ROUNDS = [
    (read_gets, number(1) + b"\2" + sized(b"a")),
    (read_gets, number(1) + b"\1" + sized(b"a") + b"\0"),
    (read_gets, number(2) + b"\1" + sized(b"a")),
    (read_gets, number(129) + b"\0" * 129),
    (read_gets, b"\0"),
    (read_ranges, number(0) + number(1) + b"\0"),
    (read_ranges, number(4097) + number(2) + b"\0\0"),
    (read_ranges, number(1) + number(1) + b"\1" + sized(b"a")),
    (read_tests, number(0)),
    (read_tests, number(1) + b"\3" + sized(b"a")),
    (read_tests, number(1) + b"\2" + number(1) + sized(b"a")),
]


class RoundFramesTest(unittest.TestCase):
    """The bytes of docs/HOST.md."""

    def test_requests(self) -> None:
        self.assertEqual(read_gets(number(3) + b"\0\1" + sized(b"a") + b"\0"), [None, Get(b"a"), None])
        within = b"\1" + sized(b"a") + sized(b"c")
        self.assertEqual(read_ranges(number(7) + number(2) + within + b"\0"), [Range(b"a", b"c", 7), None])
        tests = [(test.kind, test.ask) for test in read_tests(number(3) + HAS + LACKS + FULL)]
        self.assertEqual(tests, [(0, Get(b"a")), (1, Get(b"a")), (2, Count(b"a", b"c", 2))])

    def test_what_is_no_request(self) -> None:
        for read, body in NO_ROUNDS:
            self.assertRaises(BadRequest, read, body)


class RoundAnswersTest(unittest.TestCase):
    """What answers a round, and what is counted of it."""

    def setUp(self) -> None:
        self.store = MemoryStore()
        self.host = Host([self.store])
        for key in (b"a", b"b"):
            self.store.write(key, Guard.ANY, b"", b"v" + key)

    def check(self, op: Op, body: bytes, told: bytes, counted: tuple[dict[Op, int], int]) -> None:
        self.assertEqual(self.host.answer(Request(op, 0, body)), answer(told))
        self.assertEqual((self.host.calls, self.host.entries, self.host.requests), (*counted, 1))

    def test_keys(self) -> None:
        asked = number(4) + b"\1" + sized(b"a") + b"\0\1" + sized(b"x") + b"\1" + sized(b"b")
        told = b"\1" + sized(b"va") + b"\0\0\1" + sized(b"vb")
        self.check(Op.GETS, asked, told, ({Op.GET: 3}, 2))

    def test_ranges(self) -> None:
        asked = number(1) + number(3) + b"\1" + sized(b"a") + sized(b"z") + b"\0\1" + sized(b"x") + sized(b"z")
        told = number(1) + sized(b"a") + sized(b"va") + number(0) * 2
        self.check(Op.RANGES, asked, told, ({Op.RANGE: 2}, 1))

    def test_the_first_test_that_holds(self) -> None:
        self.check(Op.FIRST_HELD, number(3) + LACKS + FULL + HAS, number(1) + number(3), ({Op.GET: 1, Op.COUNT: 1}, 3))

    def test_no_test_that_holds(self) -> None:
        lacks = b"\0" + sized(b"x")
        self.check(Op.FIRST_HELD, number(2) + LACKS + lacks, number(2) + number(1), ({Op.GET: 2}, 1))

    def test_nothing_is_asked(self) -> None:
        self.check(Op.GETS, number(2) + b"\0\0", b"\0\0", ({Op.GET: 0}, 0))

    def test_that_rounds_are_known_is_told_and_is_no_operation(self) -> None:
        self.assertEqual(self.host.answer(Request(Op.COUNT, 0, HELLO)), answer(KNOWS_ROUNDS))
        self.assertEqual((self.host.calls.total(), self.host.requests), (0, 0))
        self.assertEqual(self.store.count(b"\xff", b"\xff", 2), 0)

    def test_a_round_without_an_answer(self) -> None:
        self.store.get = unittest.mock.Mock(side_effect=Fault("gone"))  # type: ignore[method-assign]
        asked = number(2) + (b"\1" + sized(b"a")) * 2
        self.assertEqual(self.host.answer(Request(Op.GETS, 0, asked)), FAILURE)
        self.assertEqual((self.host.faults, self.host.why), (1, "gone"))

    def test_an_answer_that_is_too_long(self) -> None:
        self.store.values[b"a"] = bytes(1 << 25)
        asked = number(2) + (b"\1" + sized(b"a")) * 2
        self.assertEqual(self.host.answer(Request(Op.GETS, 0, asked)), FAILURE)


class TogetherTest(unittest.TestCase):
    """Questions at random, together and one by one."""

    def check(self, store: Backend, chance: random.Random) -> None:
        for many in (129, 0, 1, 2, 300):
            for _ in range(8):
                store.write(chance.choice(KEYS), Guard.ANY, b"", chance.choice([None, b"", b"x", b"\0y"]))
            asks = [self.ask(chance) for _ in range(many)]
            self.assertEqual(store.together(asks), [self.alone(store, ask) for ask in asks])

    def ask(self, chance: random.Random) -> Ask:
        low, high, most = chance.choice(KEYS), chance.choice(KEYS), chance.randrange(5)
        return chance.choice([Get(low), Range(low, high, most), Count(low, high, most)])

    def alone(self, store: Backend, ask: Ask) -> Told:
        if isinstance(ask, Get):
            return store.get(ask.key)
        return store.range(*ask) if isinstance(ask, Range) else store.count(*ask)

    def test_each_store(self) -> None:
        for kind, make in stores(self):
            with self.subTest(kind):
                store = make()
                store.begin()
                self.check(store, random.Random(11))
                store.close()


class Before(Host):
    """A host of before, which knows the single calls alone."""

    def body(self, request: Request) -> bytes:
        if request.op in ROUNDS:
            raise BadRequest(f"request {request.op}")
        if request.op is Op.COUNT and request.body == HELLO:
            return number_body(self.backends[0].count(b"\xff", b"\xff", 2))
        return super().body(request)


@unittest.skipUnless(PIQL_HOST, "there is no program piql_host")
class HostsOfBeforeTest(unittest.TestCase):
    """Runs over a host that knows rounds, and over one of before."""

    def told(self, host: Host, script: bytes) -> tuple[object, ...]:
        source, reports = io.BytesIO(script), bytearray()
        status = run(str(PIQL_HOST), host, source.read, reports.extend)
        return status, bytes(reports), {op: n for op, n in host.calls.items() if n}, host.entries

    def test_the_same_is_reported_and_counted(self) -> None:
        for path in EXAMPLES:
            with self.subTest(path.name):
                hosts = Host([MemoryStore()]), Before([MemoryStore()])
                told = [self.told(host, path.read_bytes()) for host in hosts]
                self.assertEqual(*told)
                self.assertLessEqual(hosts[0].requests, hosts[1].requests)


if __name__ == "__main__":
    unittest.main()
