"""The frames that ask several questions at once, and what answers them: docs/HOST.md."""

from collections.abc import Callable, Sequence
from typing import NamedTuple, TypeVar

from .backend import Ask, Count, Get, Pair, Range, Told
from .wire import NUMBER, BadRequest, cut_number, cut_sized, pairs_body, sized

ASKS_MOST, PAIRS_MOST = 128, 4096
HAS, LACKS, FULL = range(3)
# A COUNT with this body asks whether several questions can be asked at once. No pair is in its range.
HELLO = NUMBER.pack(2) + sized(b"\xff") + b"\xff"
KNOWS_ROUNDS = NUMBER.pack(2)
T = TypeVar("T")


class Test(NamedTuple):
    """A test of a FIRST_HELD: what it is, and what it asks."""

    kind: int
    ask: Get | Count

    def holds(self, told: Told) -> bool:
        """Whether it holds, by what was told."""
        if isinstance(self.ask, Count):
            return told == self.ask.cap
        return (told is None) == (self.kind == LACKS)


def read_gets(body: bytes) -> list[Get | None]:
    """The keys of a GETS, and nothing where none is asked for."""
    return read_all(body, 0, read_key)


def read_ranges(body: bytes) -> list[Range | None]:
    """The ranges of a RANGES, and nothing where none is asked for."""
    limit = cut_number(body)
    asks = read_all(body, NUMBER.size, lambda body, at: read_within(body, at, limit))
    if limit < 1 or len(asks) > 1 and len(asks) * limit > PAIRS_MOST:
        raise BadRequest("a RANGES of more pairs than are asked for at once")
    return asks


def read_tests(body: bytes) -> list[Test]:
    """The tests of a FIRST_HELD."""
    tests = read_all(body, 0, read_test)
    if not tests:
        raise BadRequest("a FIRST_HELD without a test")
    return tests


def read_all(body: bytes, at: int, read: Callable[[bytes, int], tuple[T, int]]) -> list[T]:
    """As many questions as the number here says, and nothing behind them."""
    number, at = cut_number(body, at), at + NUMBER.size
    if number > ASKS_MOST:
        raise BadRequest(f"{number} questions at once")
    asks: list[T] = []
    for _ in range(number):
        ask, at = read(body, at)
        asks.append(ask)
    if at != len(body):
        raise BadRequest("bytes behind a request's fields")
    return asks


def read_key(body: bytes, at: int) -> tuple[Get | None, int]:
    """A key, or that none is asked for, and the place behind it."""
    if not cut_byte(body, at, 1):
        return None, at + 1
    key, at = cut_sized(body, at + 1)
    return Get(key), at


def read_within(body: bytes, at: int, limit: int) -> tuple[Range | None, int]:
    """A range, or that none is asked for, and the place behind it."""
    if not cut_byte(body, at, 1):
        return None, at + 1
    low, at = cut_sized(body, at + 1)
    high, at = cut_sized(body, at)
    return Range(low, high, limit), at


def read_test(body: bytes, at: int) -> tuple[Test, int]:
    """A test, and the place behind it."""
    kind = cut_byte(body, at, FULL)
    if kind != FULL:
        key, at = cut_sized(body, at + 1)
        return Test(kind, Get(key)), at
    cap = cut_number(body, at + 1)
    low, at = cut_sized(body, at + 1 + NUMBER.size)
    high, at = cut_sized(body, at)
    return Test(kind, Count(low, high, cap)), at


def cut_byte(body: bytes, at: int, most: int) -> int:
    """The byte that stands here, which is at most so much."""
    if at >= len(body) or body[at] > most:
        raise BadRequest("a byte of another kind")
    return body[at]


def first_held(tests: Sequence[Test], told: Sequence[Told]) -> tuple[int, int]:
    """The place of the first test that holds, or the number of tests, and the entries of those up to it."""
    entries = 0
    for place, (test, found) in enumerate(zip(tests, told, strict=True)):
        entries += entries_of(found)
        if test.holds(found):
            return place, entries
    return len(tests), entries


def entries_of(told: Told) -> int:
    """How many entries an answer has."""
    if isinstance(told, int):
        return told
    return len(told) if isinstance(told, list) else int(told is not None)


def values_body(values: Sequence[bytes | None]) -> bytes:
    """What answers a GETS."""
    return b"".join(b"\0" if value is None else b"\1" + sized(value) for value in values)


def parts_body(parts: Sequence[Sequence[Pair]]) -> bytes:
    """What answers a RANGES."""
    return b"".join(map(pairs_body, parts))


def place_body(place: int, entries: int) -> bytes:
    """What answers a FIRST_HELD."""
    return NUMBER.pack(place) + NUMBER.pack(entries)
