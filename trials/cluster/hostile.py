"""A host that lies: each kind of wrong answer at each request of a run, and answers with bytes changed at random."""

import contextlib
import random
import struct
import subprocess
import threading
from collections import Counter
from collections.abc import Callable
from typing import NamedTuple

from common import Trial
from piql.hosts import Host, MemoryStore, Op
from piql.hosts.wire import Request, answer, length_of, read_request

TIMES, SECONDS = 300, 60
# The statuses of a run that ends as one may: 0, 1 and 6 come of lies of the right form, as another value.
LAWFUL = (0, 1, 3, 4, 5, 6)
SCRIPT = b"""CREATE TABLE t (a INT, b TEXT(20), PRIMARY KEY (a), CARDINALITY LIMIT 3 (b));
INSERT INTO t VALUES (1, 'x'); INSERT INTO t VALUES (2, 'x'); INSERT INTO t VALUES (3, 'y');
PREPARE q AS SELECT * FROM t WHERE t.b = 'x'; RUN q (); DELETE FROM t WHERE a = 1; RUN q ();
"""
PLACES = [b"", b"\x02\x00\x01", b"\x03\x00\x01\x01"]
# From the right body and the request: what is sent in place of the answer, or None where nothing more is.
Lie = Callable[[bytes, Request], bytes | None]


def frame(body: bytes, version: int = 1, end: int = 1, length: int | None = None) -> bytes:
    """An answer's frame, with what it says of itself."""
    return struct.pack(">IBB", len(body) + 2 if length is None else length, version, end) + body


def pairs(*keys: bytes, number: int | None = None) -> bytes:
    """Pairs of these keys, behind their number."""
    parts = (struct.pack(">I", len(key)) + key + struct.pack(">I", 1) + b"v" for key in keys)
    return struct.pack(">I", len(keys) if number is None else number) + b"".join(parts)


def low_of(request: Request) -> bytes:
    """Where the range of a request begins."""
    if request.op is not Op.RANGE:
        return b""
    length = struct.unpack_from(">I", request.body, 4)[0]
    return request.body[8 : 8 + length]


MANY = pairs(*(b"\x01" + struct.pack(">I", number) for number in range(300)))
LIES: dict[str, Lie] = {
    "another version": lambda body, _: frame(body, version=2),
    "another end": lambda body, _: frame(body, end=7),
    "failed": lambda body, _: frame(b"", end=0),
    "failed with a body": lambda body, _: frame(b"x", end=0),
    "a length of 1": lambda body, _: frame(b"", length=1),
    "a length of 0": lambda body, _: b"\0\0\0\0",
    "a length of 4 GiB": lambda body, _: frame(body, length=0xFFFFFFFF) + bytes(1_000_000),
    "64 MiB announced": lambda body, _: frame(body, length=(1 << 26) + 2),
    "one byte more": lambda body, _: frame(body + b"\0"),
    "one byte less": lambda body, _: frame(body[:-1]) if body else frame(b"\0"),
    "no body, or one": lambda body, _: frame(b"") if body else frame(b"\0"),
    "too many pairs": lambda body, _: frame(MANY),
    "2^32 - 1 pairs": lambda body, _: frame(pairs(number=0xFFFFFFFF)),
    "a pair of 4 GiB": lambda body, _: frame(struct.pack(">II", 1, 0xFFFFFFFF) + b"abc"),
    "out of order": lambda body, request: frame(pairs(low_of(request) + b"b", low_of(request) + b"a")),
    "twice the same": lambda body, request: frame(pairs(low_of(request) + b"a", low_of(request) + b"a")),
    "above the range": lambda body, _: frame(pairs(b"\xff\xff\xff\xff")),
    "below the range": lambda body, _: frame(pairs(b"")),
    "a count of 2^32 - 1": lambda body, _: frame(b"\xff" * 4),
    "done with 2": lambda body, _: frame(b"\2"),
    "another script": lambda body, _: frame(b"DROP EVERYTHING;" * 5000),
    "all ones": lambda body, _: frame(b"\1" * len(body)),
    "nothing more": lambda body, _: None,
}
# Behind these the host closes the stream, or the engine would wait for the rest.
CLOSING = {"a length of 0", "64 MiB announced", "no body, or one", "one byte less"}


class Lied(NamedTuple):
    """How a run ended, how many requests it made, and what it wrote as errors."""

    status: int
    requests: int
    errors: bytes


def run(engine: str, places: list[bytes], at: int, lie: Lie, closes: bool) -> Lied:
    """A run in which the request number `at`, from 1, is answered by a lie."""
    pipes = {"stdin": subprocess.PIPE, "stdout": subprocess.PIPE, "stderr": subprocess.PIPE}
    process: subprocess.Popen[bytes] = subprocess.Popen([engine, "run"], **pipes)  # type: ignore[call-overload]
    timer = threading.Timer(SECONDS, process.kill)
    timer.start()
    host, left, number = Host([MemoryStore() for _ in places], places), [SCRIPT], 0
    assert process.stdin and process.stdout and process.stderr
    with contextlib.suppress(BrokenPipeError):
        while head := process.stdout.read(4):
            request = read_request(process.stdout.read(length_of(head)))
            number += 1
            body = right_body(host, request, left)
            told = lie(body, request) if number == at else answer(body)
            if told is not None:
                process.stdin.write(told)
                process.stdin.flush()
            if told is None or number == at and closes:
                process.stdin.close()
                break
    with contextlib.suppress(BrokenPipeError):
        process.stdin.close()
    process.stdout.read()
    errors = process.stderr.read()
    status = process.wait()
    timer.cancel()
    process.stdout.close()
    process.stderr.close()
    return Lied(status, number, errors)


def right_body(host: Host, request: Request, left: list[bytes]) -> bytes:
    """The body of the right answer."""
    if request.op is Op.READ:
        return left.pop() if left else b""
    return b"" if request.op is Op.REPORT else host.answer(request)[6:]


def random_lie(chance: random.Random) -> Lie:
    """A lie that changes, cuts or adds some bytes."""

    def lie(body: bytes, _: Request) -> bytes:
        out = bytearray(frame(body))
        for _ in range(chance.randrange(1, 4)):
            at = chance.randrange(len(out))
            out[at] = chance.choice([0, 1, 255, out[at] ^ (1 << chance.randrange(8))])
        if chance.randrange(4) == 0:
            return bytes(out[: chance.randrange(len(out) + 1)])
        return bytes(out) + chance.randbytes(chance.choice([0, 0, 5]))

    return lie


def lie_to(trial: Trial, name: str, engine: str, places: list[bytes]) -> None:
    """All lies to one program."""
    ends, chance, total = Counter[int](), random.Random(1), 0
    plain = run(engine, places, 0, lambda body, _: frame(body), False)
    trial.expect(plain.status == 0, f"{name}: status {plain.status} without a lie")

    def tried(what: str, at: int, lie: Lie, closes: bool) -> None:
        ended = run(engine, places, at, lie, closes)
        ends[ended.status] += 1
        right = ended.status in LAWFUL and not ended.errors
        trial.expect(right, f"{name}, {what} at {at}: status {ended.status} {ended.errors!r:.300}")

    for what, lie in LIES.items():
        for at in range(1, plain.requests + 1):
            tried(what, at, lie, what in CLOSING)
            total += 1
    for _ in range(trial.times if trial.times is not None else TIMES):
        tried("random", chance.randrange(1, plain.requests + 1), random_lie(chance), True)
        total += 1
    statuses = ", ".join(f"{number} with {status}" for status, number in sorted(ends.items()))
    trial.tell(f"{name}: {total} runs of {plain.requests} requests: {statuses}")


def hostile(trial: Trial) -> None:
    """A host that lies: each run ends with a status of its own, none by a signal."""
    lie_to(trial, "piql_host", trial.engine, [b""])
    if trial.nodes:
        lie_to(trial, "piql_nodes", trial.nodes, PLACES)
