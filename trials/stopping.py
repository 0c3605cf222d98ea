"""Runs over a store in memory of which one call fails, made or not made."""

import io
from typing import NamedTuple

from piql.hosts import Backend, Host, MemoryStore, Op, run
from piql.hosts.rounds import HELLO
from piql.hosts.wire import FAILURE, NUMBER, SINGLE, Request, Write, answer


class Stop(NamedTuple):
    """The call that fails, from 1, and whether it is made all the same."""

    call: int
    is_made: bool


class Stopping(Host):
    """A host of which a call fails. It counts the calls, and the writes that it made."""

    def __init__(self, store: MemoryStore, stop: Stop | None) -> None:
        super().__init__([store])
        self.stop, self.asked, self.writes = stop, 0, 0

    def answer(self, request: Request) -> bytes:
        if request.op is Op.COUNT and request.body == HELLO:
            # As a host of before, so that each call comes by itself, and can be the one that fails.
            return answer(NUMBER.pack(0))
        if request.op not in SINGLE:
            return super().answer(request)
        self.asked += 1
        fails = self.stop is not None and self.asked == self.stop.call
        if fails and not (self.stop is not None and self.stop.is_made):
            return FAILURE
        told = super().answer(request)
        self.writes += request.op is Op.WRITE
        return FAILURE if fails else told


class StoppingEach(Stopping):
    """The same, but each write is made as it comes, and not with those of its statement."""

    def written(self, backend: Backend, write: Write) -> bool:
        return backend.write(*write)


class Ran(NamedTuple):
    """How a run ended: its status, what it wrote, its calls, and how many of them were writes that were made."""

    status: int
    text: str
    calls: int
    writes: int


def ran(engine: str, store: MemoryStore, script: str, stop: Stop | None = None, at_once: bool = True) -> Ran:
    """Runs a script over a store. A statement's writes are made at once by the last of them, or each as it comes."""
    host = Stopping(store, stop) if at_once else StoppingEach(store, stop)
    told = io.BytesIO()
    status = run(engine, host, io.BytesIO(script.encode()).read, told.write)
    return Ran(status, told.getvalue().decode(), host.asked, host.writes)


def copy_of(store: MemoryStore) -> MemoryStore:
    copied = type(store)()
    copied.values, copied.keys = dict(store.values), list(store.keys)
    return copied
