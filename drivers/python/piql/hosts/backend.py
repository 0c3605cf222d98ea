"""What a host keeps pairs in: a backend has four calls. To write one for another store, read this file alone.

A backend keeps pairs of a key and a value, both `bytes`. The engine thinks, the backend keeps: it knows nothing of
tables or statements. A new one is a subclass of Backend with `get`, `range`, `count` and `write`, as memory.py shows in
forty lines. It owes the engine this:

1. Keys are ordered by their bytes. A range has `low <= key < high`, and is empty where low isn't below high. Any key
   may come, the empty one too.
2. Each call is one step: it sees all writes that were answered before it, and a write's guard and its change are one.
3. A write that was answered stays. One that has no answer is decided before the call returns or raises: it was made, or
   it wasn't and can be made no more. Where nothing decides it, the call raises Fault, and so does each call behind it.
   A backend that has transactions has a `commit` of its own besides: all changes of a statement, or none.
4. Nobody else writes between `begin` and the first Fault. A store that others can reach needs a fence for this: a value
   of the store that each call compares, reads too, in the same step (etcd.py and postgres.py have one each).
5. A call ends by itself: what waits for a network has a limit of time of its own.

A fault ends the run of the engine. The next run begins with `begin`, and settles what was left half made. Whether a
backend keeps these is tried by trials/cluster; how much work a call is for the store is told in docs/SCALING.md.
"""

import abc
import enum
from collections.abc import Sequence
from typing import NamedTuple

Pair = tuple[bytes, bytes]
# A key with its new value, or None where it has none from then on.
Change = tuple[bytes, bytes | None]
# The key at which an engine puts down the changes of a statement before it makes them.
INTENT = b"\4"
UNSETTLED = "the changes of another statement are there"


class Guard(enum.IntEnum):
    """What has to stand at the key of a write, or the write isn't made."""

    ANY = 0
    ABSENT = 1
    IS = 2


class Get(NamedTuple):
    """The question for the value of a key."""

    key: bytes


class Range(NamedTuple):
    """The question for the first pairs of a range."""

    low: bytes
    high: bytes
    limit: int


class Count(NamedTuple):
    """The question for how many pairs a range has, up to a cap."""

    low: bytes
    high: bytes
    cap: int


Ask = Get | Range | Count
Told = bytes | None | list[Pair] | int


class Fault(Exception):
    """A call that has no answer. Behind a write the content is the old one or the changed one, and stays so."""


class Unreachable(Fault):
    """No server answers, and nothing is wrong with the store as far as is known: it may be tried again."""


class Held(Exception):
    """Another engine has the store for itself."""


class Backend(abc.ABC):
    """A store of pairs, as this file's first lines ask for. Only the four calls have to be written."""

    # What tells a reader which writes are in what it reads: it never falls. 0 where a store has no such number.
    revision = 0

    @abc.abstractmethod
    def get(self, key: bytes) -> bytes | None:
        """The value of a key, or None."""

    @abc.abstractmethod
    def range(self, low: bytes, high: bytes, limit: int) -> list[Pair]:
        """The first pairs of a range, at most `limit`, in the order of their keys."""

    @abc.abstractmethod
    def count(self, low: bytes, high: bytes, cap: int) -> int:
        """How many pairs a range has, or `cap` where it has more."""

    @abc.abstractmethod
    def write(self, key: bytes, guard: Guard, held: bytes, new: bytes | None) -> bool:
        """Gives a key a value, or none; whether it was done. False says that the guard didn't hold.

        Guard.ANY always holds, ABSENT where the key has no value, IS where it has just the value `held`.
        """

    def together(self, asks: Sequence[Ask]) -> list[Told]:
        """The answers to several questions, in their order. A store that is far away answers them in one round."""
        return [self.alone(ask) for ask in asks]

    def alone(self, ask: Ask) -> Told:
        """The answer to one question."""
        if isinstance(ask, Get):
            return self.get(ask.key)
        return self.range(*ask) if isinstance(ask, Range) else self.count(*ask)

    def commit(self, intent: bytes, changes: Sequence[Change]) -> None:
        """Makes the changes of a statement, in their order. Where it raises Fault, all of them are made or none.

        A store with transactions makes them by one, and writes no intent. Here they are made by the intent: an opening
        that finds it makes what was left.
        """
        if not self.write(INTENT, Guard.ABSENT, b"", intent):
            raise Fault(UNSETTLED)
        for key, new in changes:
            self.write(key, Guard.ANY, b"", new)
        self.write(INTENT, Guard.ANY, b"", None)

    def begin(self) -> None:
        """Called before each run of an engine. Raises Held where another engine has the store."""

    def is_begun(self) -> bool:
        """Asked between two statements: whether what the engine has read may still be gone by."""
        return True

    def leave(self) -> None:
        """Called where something else than a Fault has ended a call, as a signal's handler does.

        A write that was asked for may still be made then. The next `begin` decides it.
        """

    def keep(self) -> None:
        """Called now and then while an engine is idle, by who wants to keep the store for himself."""

    def close(self) -> None:
        """Gives back what is held. Nothing is called behind it."""


class Reading(Backend):
    """A store that is only read, at a revision that stands still while a statement is at work."""

    # Changes with the definitions at the revision that was pinned. An engine keeps those that it began with.
    definitions: object = None

    @abc.abstractmethod
    def pin(self, least: int = 0) -> None:
        """Takes the newest revision, not below `least`, at which no statement and no build was at work."""

    def write(self, key: bytes, guard: Guard, held: bytes, new: bytes | None) -> bool:
        """Refused: an engine at a quiet revision has no reason to write."""
        raise Fault("a reader doesn't write")
