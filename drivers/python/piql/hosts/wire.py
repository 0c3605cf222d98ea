"""The frames between an engine and its host, version 1: docs/HOST.md. Numbers have the higher byte first."""

import enum
import struct
from collections.abc import Sequence
from typing import NamedTuple

from .backend import Guard, Pair

VERSION, FAILED, DONE = 1, 0, 1
REQUEST_MOST, ANSWER_MOST = 1 << 24, 1 << 26
PLACES_MOST = 64
NUMBER, HEAD, ANSWER = struct.Struct(">I"), struct.Struct(">BBB"), struct.Struct(">IBB")
FAILURE = ANSWER.pack(2, VERSION, FAILED)


class Op(enum.IntEnum):
    """What a request asks for."""

    READ = 1
    REPORT = 2
    PLACES = 3
    GET = 16
    RANGE = 17
    COUNT = 18
    WRITE = 19
    GETS = 20
    RANGES = 21
    FIRST_HELD = 22


SINGLE = (Op.GET, Op.RANGE, Op.COUNT, Op.WRITE)
ROUNDS = (Op.GETS, Op.RANGES, Op.FIRST_HELD)


class BadRequest(Exception):
    """What came is no request of an engine."""


class Request(NamedTuple):
    """A request without its length: what it asks for, the node that it is for, and the rest."""

    op: Op
    node: int
    body: bytes


class Write(NamedTuple):
    """The body of a WRITE."""

    key: bytes
    guard: Guard
    held: bytes
    new: bytes | None


def length_of(head: bytes) -> int:
    """How many bytes a request has behind these four."""
    length: int = NUMBER.unpack(head)[0]
    if not HEAD.size <= length <= REQUEST_MOST:
        raise BadRequest(f"a request of {length} bytes")
    return length


def read_request(frame: bytes) -> Request:
    """The request whose bytes these are, without the length before them."""
    version, op, node = HEAD.unpack_from(frame)
    if version != VERSION or op not in Op.__members__.values():
        raise BadRequest(f"request {op} of version {version}")
    return Request(Op(op), node, frame[HEAD.size :])


def cut_number(body: bytes, at: int = 0) -> int:
    """The number that stands here."""
    if at + NUMBER.size > len(body):
        raise BadRequest("a request that ends in a number")
    number: int = NUMBER.unpack_from(body, at)[0]
    return number


def cut_sized(body: bytes, at: int) -> tuple[bytes, int]:
    """The bytes behind their length, and the place behind them."""
    begin = at + NUMBER.size
    end = begin + cut_number(body, at)
    if end > len(body):
        raise BadRequest("a length past the end")
    return body[begin:end], end


def read_room(body: bytes) -> int:
    """How many bytes a READ has room for."""
    if len(body) != NUMBER.size:
        raise BadRequest("a READ of another length")
    return cut_number(body)


def read_range(body: bytes) -> tuple[bytes, bytes, int]:
    """Low, high, and the limit or the cap of a RANGE or a COUNT."""
    low, at = cut_sized(body, NUMBER.size)
    return low, body[at:], cut_number(body)


def read_write(body: bytes) -> Write:
    """What a WRITE asks for."""
    if len(body) < 2 or body[0] > Guard.IS or body[1] > 1:
        raise BadRequest("a write of another kind")
    key, at = cut_sized(body, 2)
    held, at = cut_sized(body, at)
    return Write(key, Guard(body[0]), held, body[at:] if body[1] else None)


def answer(body: bytes) -> bytes:
    """The frame of an answer."""
    return ANSWER.pack(len(body) + 2, VERSION, DONE) + body


def sized(data: bytes) -> bytes:
    """Bytes behind their length."""
    return NUMBER.pack(len(data)) + data


def value_body(value: bytes | None) -> bytes:
    """What answers a GET."""
    return b"\0" if value is None else b"\1" + value


def pairs_body(pairs: Sequence[Pair]) -> bytes:
    """What answers a RANGE."""
    return b"".join([NUMBER.pack(len(pairs)), *(sized(part) for pair in pairs for part in pair)])


def number_body(number: int) -> bytes:
    """What answers a COUNT."""
    return NUMBER.pack(number)


def done_body(is_done: bool) -> bytes:
    """What answers a WRITE."""
    return b"\1" if is_done else b"\0"


def places_body(keys: Sequence[bytes]) -> bytes:
    """What answers PLACES: the first key of each node."""
    return b"".join([NUMBER.pack(len(keys)), *map(sized, keys)])
