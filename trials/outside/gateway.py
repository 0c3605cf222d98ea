"""Whatever a member of etcd answers, a call ends in time, with an answer or with a Fault."""

import json
import random
import socket
import time

from lying import LyingServer
from piql.hosts import Backend, Fault, Guard, Held
from piql.hosts.etcd import EtcdStore
from piql.hosts.etcd_client import EtcdClient, coded
from piql.hosts.etcd_reading import EtcdReading

PATIENCE = 0.2
# A call that takes longer than this has no end.
MOST = 5.0
HEADER = {"revision": "7"}
PAIR = {"key": coded(b"shop/kv/k"), "value": coded(b"v"), "create_revision": "3", "mod_revision": "5"}
READ, PUT = {"response_range": {"kvs": [PAIR], "count": "1"}}, {"response_put": {}}
# Answers as they may be, to whichever request.
RIGHT: list[dict[str, object]] = [
    {"header": HEADER, "kvs": [PAIR]},
    {"header": HEADER, "succeeded": True, "responses": [READ]},
    {"header": HEADER, "succeeded": True, "responses": [READ, READ]},
    {"header": HEADER, "succeeded": True, "responses": [PUT, PUT]},
    {"header": HEADER, "responses": [READ]},
    {"header": HEADER, "ID": "77", "TTL": "10"},
    {"result": {"header": HEADER, "TTL": "10"}},
    {"error": "no leader", "code": 14, "message": "no leader"},
    {"error": "compacted", "code": 11, "message": "compacted"},
]
ODD: list[object] = [None, True, 0, -1, 1e300, "", "x", "=", "-5", "9" * 5000, [], {}, [[]], {"kvs": 1}, "\ud800", "\0"]
STATUSES = ["200 OK"] * 6 + ["400 Bad Request", "503 Service Unavailable", "302 Found", "999", "x"]


def changed(it: object, source: random.Random) -> object:
    """A value with something of it changed, or another one."""
    if source.random() < 0.1 or not isinstance(it, (dict, list)) or not it:
        return source.choice(ODD)
    if isinstance(it, list):
        place = source.randrange(len(it))
        return source.choice([[*it[:place], changed(it[place], source), *it[place + 1 :]], it * 2, it[:place]])
    name = source.choice(list(it))
    rest = {other: value for other, value in it.items() if other != name}
    return source.choice([{**it, name: changed(it[name], source)}, rest, {**rest, source.choice(["x", ""]): it[name]}])


def drawn(source: random.Random) -> bytes:
    """An answer of HTTP with something wrong, or with nothing."""
    told: object = source.choice(RIGHT)
    for _ in range(source.randrange(3)):
        told = changed(told, source)
    body = json.dumps(told).encode()
    body = source.choice([body] * 6 + [body[: source.randrange(len(body) + 1)], b"[" * 9999, b"\xff" + body])
    length = source.choice([len(body)] * 8 + [len(body) + 5, 0, -1, 10**30])
    head = source.choice([f"Content-Length: {length}"] * 6 + ["Transfer-Encoding: chunked", "X: " + "y" * 70_000, ""])
    text = f"HTTP/1.1 {source.choice(STATUSES)}\r\n{head}\r\n\r\n".encode() + body
    return source.choice([text] * 8 + [text[: source.randrange(len(text))], b"", text + text])


def called(store: Backend, source: random.Random) -> None:
    """Makes one of a store's calls."""
    if isinstance(store, EtcdReading):
        source.choice([store.pin, lambda: store.get(b"k"), lambda: store.range(b"a", b"z", 5)])()
        return
    assert isinstance(store, EtcdStore)
    if source.random() < 0.7:
        # As if it had the fence.
        store.lost, store.renewed = None, time.monotonic()
    writes = [lambda: store.write(b"k", Guard.ABSENT, b"", b"v"), lambda: store.commit(b"i", [(b"k", None)])]
    source.choice([store.begin, store.holder, lambda: store.count(b"a", b"z", 5), *writes])()


def trial(source: random.Random) -> str:
    """One call at members that answer at random."""

    def answer(made: socket.socket, _: bytes) -> None:
        made.sendall(drawn(source))

    begun = time.monotonic()
    with LyingServer(answer) as server:
        client = EtcdClient([f"127.0.0.1:{server.port}"] * 2, PATIENCE / 2)
        makes = (lambda: EtcdStore(client, "shop", 10.0, PATIENCE), lambda: EtcdReading(client, "shop", PATIENCE))
        store = source.choice(makes)()
        try:
            called(store, source)
        except (Fault, Held):
            pass
        except Exception as error:
            return f"{type(error).__name__} is raised: {error}"
        finally:
            store.close()
    took = time.monotonic() - begun
    return f"it took {took:.1f} seconds" if took > MOST else ""
