"""One run of the engine after the other, wherever the store is: what is sent, and how the end of a run is told."""

import os
from collections.abc import Callable, Sequence
from typing import Protocol

from .engine import EngineEnded, Stalled
from .errors import DatabaseError, InterfaceError, InternalError, OperationalError, StoreGone, ended
from .lots import Asked, Tell, Told, again, not_begun


def check_owner(owner: int) -> None:
    """Refuses a connection that was made before a fork."""
    if owner != os.getpid():
        raise InterfaceError("this connection was made before a fork: each process needs one of its own")


def told_end(end: EngineEnded, stands: str, cause: str = "") -> DatabaseError:
    """The exception of a run that ended, with what stands then, and its cause where that is known."""
    return ended(end.status, f"{stands} {end.written}".strip(), end.damaged, cause)


class Run(Protocol):
    """A run of the engine, wherever its store is."""

    def has_room(self, statement: bytes) -> bool:
        """Whether the script is no longer than it may be with the statement."""

    def exchange(self, statement: bytes, limit: float | None = None) -> bytes:
        """The report of one statement, which may take so many seconds."""

    def exchange_all(
        self, statements: Sequence[bytes], tell: Callable[[bytes], None], limit: float | None = None
    ) -> None:
        """Tells the report of each of several statements, which may take so many seconds together."""

    def has_ended(self) -> bool:
        """Whether the run is over, by itself or since an exchange was stopped."""

    def close(self) -> int:
        """Ends the run; its status."""


class EngineLink:
    """One run of the engine at a time."""

    def __init__(self) -> None:
        self.owner = os.getpid()
        self.engine: Run | None = None

    def running(self, statement: bytes) -> Run:
        """A run with room for the statement."""
        raise NotImplementedError

    def stands(self, reads: bool) -> str:
        """What stands where the run ended in mid-statement."""
        raise NotImplementedError

    def ended(self, end: EngineEnded, stands: str) -> DatabaseError:
        """The exception of a run that ended."""
        return told_end(end, stands)

    def failure(self, error: Exception, reads: bool) -> DatabaseError | None:
        """The exception of a run that ended in a statement, or was; None where it is another one."""
        if isinstance(error, EngineEnded):
            return self.ended(error, self.stands(reads))
        if isinstance(error, Stalled):
            return OperationalError(f"{error}, so the run was ended. {self.stands(reads)}")
        return None

    def told(self, report: bytes) -> str:
        """A report that has come, if it may be told."""
        return report.decode()

    def exchange(self, statement: bytes, reads: bool, limit: float | None = None) -> str:
        """The report of the statement."""
        check_owner(self.owner)
        engine = self.running(statement)
        try:
            return self.told(engine.exchange(statement, limit))
        except Exception as error:
            if failure := self.failure(error, reads):
                raise failure from error
            raise
        finally:
            if engine.has_ended():
                self.engine = None

    def exchange_all(self, lot: Sequence[Asked], tell: Tell, limit: float | None = None) -> None:
        """Tells what became of each of several statements. Where it raises an Error itself, nothing was sent."""
        check_owner(self.owner)
        engine = self.running(b"".join(it.statement for it in lot))
        told = Told(lot, tell)
        try:
            engine.exchange_all([it.statement for it in lot], lambda report: told.one(self.told(report)), limit)
        except (InternalError, StoreGone) as error:
            told.rest(again(error))
        except Exception as error:
            failure = self.failure(error, lot[told.count].reads) if told.left() else None
            if failure is None:
                raise
            failure.__cause__ = error
            told.one(failure)
            told.rest(not_begun)
        finally:
            if engine.has_ended():
                self.engine = None

    def close(self) -> None:
        """Ends the run."""
        if self.engine is not None and self.owner == os.getpid():
            self.engine.close()
        self.engine = None
