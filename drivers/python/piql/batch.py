"""Several writes that are made as one: all of them, or none.

    with connection.batch() as batch:
        batch.execute("INSERT INTO orders VALUES (?, ?)", (1, "ann"))
        batch.execute("UPDATE items SET stock ADD -1 WHERE id = ? IF stock >= 1", (7,))
    print(batch.rowcount)
"""

import contextlib
from bisect import bisect_right
from collections.abc import Sequence
from itertools import accumulate
from typing import TYPE_CHECKING

from .collecting import Collecting, Reported
from .connection import asked_of
from .errors import BatchFull, ProgrammingError
from .scripts import STATEMENT_BYTES
from .statements import BATCH_HEAD, BETWEEN, Sent, Statement, batch_of, read_statement, repeated
from .writes import WRITES

if TYPE_CHECKING:
    from .connection import Connection, Parameters

NO_WRITE = "a batch takes an INSERT, an UPDATE or a DELETE, and no other statement"
FULL = f"a batch has at most {WRITES} writes and {STATEMENT_BYTES:,} bytes. This write wasn't taken, and nothing was sent"
# The bytes of a batch for its writes, of which each has what stands between two with it.
ROOM = STATEMENT_BYTES - len(BATCH_HEAD) - len(";") + len(BETWEEN)


def batch_of_rows(write: Statement, rows: Sequence[str]) -> Sent:
    """A batch of the same write for the first rows that it has room for, each in the one place of its write."""
    own = len(write.template.encode()) - len("%s") + len(BETWEEN)
    ends = accumulate(own + len(row.encode()) for row in rows[:WRITES])
    count = bisect_right(list(ends), ROOM)
    return Sent(repeated(write, count), "", tuple(rows[:count]))


class Batch(Collecting, Reported):
    """Collects writes, and makes them as one. It belongs to one thread, as a cursor does.

    The first write that is refused refuses all of them: its exception has the number of the write, from 1, as `place`,
    and its text as `write`. An UPDATE or a DELETE that finds no row refuses the batch too.
    """

    def __init__(self, connection: "Connection", timeout: float | None) -> None:
        self.connection, self.timeout = connection, timeout
        self._made = 0
        self._forget()

    def _forget(self) -> None:
        """No write is collected."""
        self._writes: list[Sent] = []
        self._bytes = 0

    def __len__(self) -> int:
        """How many writes are collected."""
        return len(self._writes)

    def execute(self, operation: str, parameters: "Parameters" = ()) -> None:
        """Collects a write with a value for each `?`; what is wrong with its values is told at once."""
        statement = read_statement(operation)
        if not statement.kind.is_write:
            raise ProgrammingError(NO_WRITE)
        sent = asked_of(statement, parameters, None)
        size = len(sent.data()) - len(";") + len(BETWEEN)
        if len(self._writes) == WRITES or self._bytes + size > ROOM:
            raise BatchFull(FULL)
        self._bytes += size
        self._writes.append(sent)

    def make(self) -> None:
        """Makes what is collected, as one; nothing where nothing is. The batch is empty then, and may collect anew."""
        writes = self._writes
        self._forget()
        self._report, self._made = None, 0
        if not writes:
            return
        within = contextlib.nullcontext() if self.timeout is None else self.connection.within(self.timeout)
        with within:
            self._report = self.connection.report(batch_of(writes))
        self._made = len(writes)

    def _finish(self) -> None:
        """Makes what is collected."""
        self.make()

    @property
    def rowcount(self) -> int:
        """How many rows were written: one by each write, once the batch was made."""
        return self._made
