"""What a transaction holds back: its writes, until it is committed.

The engine has no transactions over several statements, but a batch of writes. So a transaction may read, and then
write: the writes are sent by its commit, several of them as one batch, and a rollback drops them. A read behind a write
is refused, which wouldn't see it, and so is a definition beside another statement. With the isolation level AUTOCOMMIT
each statement is sent at once.
"""

from typing import Any, NamedTuple

from ..batch import Batch
from ..connection import Connection, asked_of
from ..cursor import Cursor
from ..errors import NotSupportedError
from ..statements import Kind, read_statement

ALONE = (
    "a transaction has INSERTs, UPDATEs and DELETEs, or one other statement that changes something: nothing of it was"
    ' made. Commit in between, or have the isolation level AUTOCOMMIT (execution_options(isolation_level="AUTOCOMMIT")),'
    " by which each statement is made at once, by itself"
)
BEHIND = (
    "a transaction's writes are made by its commit, so a read behind one wouldn't see it: read before the writes, or"
    " commit in between"
)


class Change(NamedTuple):
    """A statement that changes something, with its values."""

    text: str
    values: Any


def is_reading(kind: Kind) -> bool:
    """Whether statements of a kind change no row, and may be made at once."""
    return kind.reads or kind.is_prepared


class Held:
    """The state of one connection."""

    def __init__(self) -> None:
        self.is_at_once = False
        self.drop()

    def drop(self) -> None:
        """Drops what is held."""
        # The first change by itself, and all of them where they are writes.
        self.first: Change | None = None
        self.batch: Batch | None = None

    def execute(self, cursor: Cursor, text: str, values: Any) -> None:
        """Makes a statement, or holds it."""
        reads = is_reading(read_statement(text).kind)
        if reads and self.first is not None:
            raise NotSupportedError(BEHIND)
        if reads or self.is_at_once:
            cursor.execute(text, values)
        else:
            self.hold(cursor.connection, Change(text, values))

    def execute_many(self, cursor: Cursor, text: str, rows: Any) -> None:
        """Makes a statement for each list of values, or holds all of them."""
        if self.is_at_once:
            cursor.executemany(text, rows)
            return
        for row in rows:
            self.execute(cursor, text, row)

    def hold(self, connection: Connection, change: Change) -> None:
        """Holds a write behind those before it, or what is no write by itself. What is wrong with its values is told."""
        statement = read_statement(change.text)
        if self.first is not None and (self.batch is None or not statement.kind.is_write):
            raise NotSupportedError(ALONE)
        if statement.kind.is_write:
            batch = connection.batch() if self.batch is None else self.batch
            batch.execute(change.text, change.values)
            self.batch = batch
        else:
            asked_of(statement, change.values, None).data()
        self.first = self.first or change

    def commit(self, connection: Connection) -> None:
        """Makes what is held: a batch, or the only statement by itself."""
        first, batch = self.first, self.batch
        self.drop()
        if batch is not None and len(batch) > 1:
            batch.make()
        elif first is not None:
            connection.execute(first.text, first.values)
