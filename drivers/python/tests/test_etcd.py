"""Stores in etcd whose members answer wrongly, slowly or not at all: a Fault, within the time that a call has."""

import base64
import contextlib
import json
import socket
import time
import unittest
import unittest.mock
from collections.abc import Callable

from clusters import etcd_url, needs_etcd
from lying import Answer, LyingServer, dribbling, silent, telling
from piql.hosts import Backend, Count, Fault, Get, Guard, Range
from piql.hosts.etcd import EtcdStore
from piql.hosts.etcd_client import EtcdClient, coded, putting, read_told
from piql.hosts.etcd_reading import EtcdReading
from piql.hosts.urls import open_reading, open_store

# Seconds of a call at a member that answers at once, and at one that doesn't.
SHORT, PATIENCE = 0.1, 0.5
# More than a call has, on a machine that does much else.
SECONDS = 6.0
HEADER = {"header": {"revision": "7"}}


def pair(**more: object) -> dict[str, object]:
    """A pair as the gateway writes it, or of another form."""
    return {"key": coded(b"shop/kv/k"), "value": "", "create_revision": "1", "mod_revision": "1", **more}


def found(*pairs: object) -> bytes:
    """The answer of a read, of its own or within a transaction."""
    part = {"response_range": {"kvs": list(pairs)}}
    return json.dumps({**HEADER, "succeeded": True, "kvs": list(pairs), "responses": [part]}).encode()


LIES: dict[str, bytes] = {
    "nothing": b"",
    "an empty object": b"{}",
    "no object": b"[1, 2]",
    "a text": b'"ok"',
    "no JSON": b"<html>It works</html>",
    "bytes": b"\xff\xfe\0",
    "deep brackets": b"[" * 100_000,
    "deep objects": b'{"a":' * 100_000,
    "a long number": b'{"header": {"revision": %s}}' % (b"9" * 5000),
    "a header alone": json.dumps(HEADER).encode(),
    "a header that is none": b'{"header": 3, "succeeded": true, "responses": []}',
    "made, and yet not": json.dumps({**HEADER, "succeeded": "yes"}).encode(),
    "no responses": json.dumps({**HEADER, "succeeded": True, "responses": 5}).encode(),
    "other responses": json.dumps({**HEADER, "succeeded": True, "responses": [None, 3]}).encode(),
    "pairs that are none": found(3, None),
    "a pair without a key": found({"value": ""}),
    "a key in no base64": found(pair(key="!!!")),
    "a key that is a number": found(pair(key=7)),
    "a value that is a list": found(pair(value=[])),
    "a revision in letters": found(pair(create_revision="x")),
    "a null": found(pair(mod_revision=None)),
    "a key of another store": found(pair(key=coded(b"other/kv/k"))),
    "a lease that is none": b'{"ID": "x", "TTL": "y", "result": 3}',
}


# To a read of its own these are answers: nothing was found.
OF_NOTHING = {"a header alone", "made, and yet not", "no responses", "other responses"}
ALL = {"get", "range", "count", "together", "begin", "write", "commit", "pin"}


def calls(store: Backend) -> dict[str, Callable[[], object]]:
    """The calls of a store."""
    made: dict[str, Callable[[], object]] = {
        "get": lambda: store.get(b"z"),
        "range": lambda: store.range(b"a", b"z", 5),
        "count": lambda: store.count(b"a", b"z", 5),
        "together": lambda: store.together([Get(b"z"), Range(b"a", b"z", 5), Count(b"a", b"z", 5)]),
    }
    if isinstance(store, EtcdReading):
        return made | {"pin": store.pin}
    return made | {
        "begin": store.begin,
        "write": lambda: store.write(b"k", Guard.ANY, b"", b"v"),
        "commit": lambda: store.commit(b"an intent", [(b"k", b"v")]),
    }


def opened(port: int, patience: float) -> list[Backend]:
    """A writer's store, and a reader's."""
    first, second = (EtcdClient([f"127.0.0.1:{port}"], patience / 2) for _ in range(2))
    return [EtcdStore(first, "shop", 10.0, patience), EtcdReading(second, "shop", patience)]


class LyingTest(unittest.TestCase):
    """Each call at a member that answers as none does."""

    def check(self, answer: Answer, patience: float, names: set[str]) -> None:
        server = self.enterContext(LyingServer(answer))
        for store in opened(server.port, patience):
            for name in names & set(calls(store)):
                if isinstance(store, EtcdStore):
                    # As if it had the fence, but where it wants it.
                    store.lost, store.renewed = "not begun" if name == "begin" else None, time.monotonic()
                begun = time.monotonic()
                with self.subTest(type(store).__name__, call=name), self.assertRaises(Fault):
                    calls(store)[name]()
                self.assertLess(time.monotonic() - begun, SECONDS)
            store.close()
        server.close()

    def test_what_is_no_answer(self) -> None:
        for lie, text in LIES.items():
            names = {"write", "pin"} if lie in OF_NOTHING else {"get", "write", "pin"}
            with self.subTest(lie):
                self.check(telling(text), SHORT, names)

    def test_each_call_at_the_commonest_of_them(self) -> None:
        for status in ("200 OK", "503 Service Unavailable", "404 Not Found"):
            with self.subTest(status):
                self.check(telling(b"{}", status), SHORT, ALL)
        self.check(telling(b'{"code": {}, "message": [1]}', "400 Bad Request"), SHORT, ALL)

    def test_a_member_that_dribbles_or_is_silent_takes_no_longer_than_a_call_has(self) -> None:
        for answer in (silent, dribbling(b"HTTP/1.1 200 OK\r\nContent-Length: 999\r\n\r\n" + b" " * 999, 0.1)):
            self.check(answer, PATIENCE, ALL)

    def test_each_address_of_a_host_is_tried(self) -> None:
        server = self.enterContext(LyingServer(telling(found())))
        with socket.create_server(("127.0.0.1", 0)) as closed:
            ports = [closed.getsockname()[1], server.port]
        places = [(socket.AF_INET, socket.SOCK_STREAM, 6, "", ("127.0.0.1", port)) for port in ports]
        with unittest.mock.patch.object(socket, "getaddrinfo", return_value=places):
            reading = EtcdReading(EtcdClient(["member:1"], PATIENCE), "shop", PATIENCE)
            self.addCleanup(reading.close)
            self.assertIsNone(reading.get(b"k"))

    def test_nothing_of_an_answer_is_told(self) -> None:
        marked = base64.b64encode(b"a row's value").decode()
        told = json.dumps({"kvs": marked, "responses": [marked]}).encode()
        server = self.enterContext(LyingServer(telling(told)))
        for store in opened(server.port, SHORT):
            with self.assertRaises(Fault) as caught:
                store.begin() if isinstance(store, EtcdStore) else store.get(b"k")
            self.assertNotIn(marked, str(caught.exception))
            store.close()


@needs_etcd
class MemberTest(unittest.TestCase):
    """A member of etcd itself."""

    def test_a_fence_that_no_engine_wrote(self) -> None:
        url = etcd_url()
        store = open_store(url)
        assert isinstance(store, EtcdStore)
        put = putting(store.fence_key, b"\xff no fence")
        store.client.post("/v3/kv/txn", {"success": [put]}, read_told, 5.0)
        self.assertRaisesRegex(Fault, "a value that no engine writes", store.begin)
        store.close()

    def test_a_writer_and_a_reader(self) -> None:
        url = etcd_url()
        store, reader = open_store(url), open_reading(url)
        store.begin()
        store.commit(b"an intent", [(b"\2k", b"v"), (b"\2l", b"w")])
        self.assertTrue(store.write(b"\2l", Guard.IS, b"w", None))
        reader.pin(store.revision)
        self.assertEqual(reader.range(b"", b"\xff", 9), [(b"\2k", b"v")])
        with contextlib.closing(store), contextlib.closing(reader):
            store.write(b"\2k", Guard.ANY, b"", b"new")
            self.assertEqual((reader.get(b"\2k"), store.get(b"\2k")), (b"v", b"new"))


if __name__ == "__main__":
    unittest.main()
