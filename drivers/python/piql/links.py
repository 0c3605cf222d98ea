"""What a connection sends its statements over: a process of its own, or (socketlink) a server that many share."""

import os
import time
from collections.abc import Sequence
from typing import Protocol

from .backup import copy_whole
from .causes import LOCKED, cause_of, is_locked
from .engine import Engine, EngineEnded, find_program
from .errors import DatabaseError, OperationalError, StoreGone
from .interrupts import is_of_call
from .lots import Asked, Tell
from .runs import EngineLink, Run, check_owner, told_end
from .stored import DEFINITIONS, StoredDefinition, opened, pairs, stored_definitions

STANDS_READ = (
    "This statement changes nothing; all that was reported as ok before stands."
    " The next statement opens the file anew."
)
STANDS_WRITE = (
    "This statement was made whole or not at all; all that was reported as ok before stands."
    " The next statement opens the file anew, which settles it."
)
KEEPS_NOTHING = (
    "a store in memory can't outlive its run, which takes 16,777,216 bytes of statements: its rows are lost now;"
    " connect to a file to keep them"
)
GONE = (
    "{path} was removed, or another file was put in its place, while it was open. This statement was made or not made,"
    " in the file that is gone, and so was all that was told since then. This connection can't be used again"
)
# Which file a path names: its device and its inode, or None where there is none.
Identity = tuple[int, int] | None


class Link(Protocol):
    """Takes one statement after the other.

    `reads` says that a statement changes nothing, `limit` for how many seconds its report is waited for at most.
    """

    def exchange(self, statement: bytes, reads: bool, limit: float | None = None) -> str:
        """The report of the statement."""

    def exchange_all(self, lot: Sequence[Asked], tell: Tell, limit: float | None = None) -> None:
        """Sends several statements together, and tells what became of each, in their order.

        Where it raises an Error itself, nothing was sent.
        """

    def backup(self, path: str) -> None:
        """Copies the store between two statements."""

    def stored(self) -> list[StoredDefinition] | None:
        """Ends the run, and reads the definitions beside it; None where nobody but another process may."""

    def close(self) -> None:
        """Gives back what the link holds."""


def identity_of(path: str) -> Identity:
    """Which file a path names now."""
    try:
        found = os.stat(path)
    except OSError as error:
        if not is_of_call(error):
            raise
        return None
    return found.st_dev, found.st_ino


class FileLink(EngineLink):
    """A file. The next run is begun before the script of the last one is too long.

    `timeout` is for how many seconds a file that another process has is tried again, `seconds` for how long a statement
    may take before the run is ended.
    """

    def __init__(
        self, path: str, program: str | os.PathLike[str] | None, timeout: float, seconds: float | None = None
    ) -> None:
        super().__init__()
        # A process may change its folder later.
        self.path, self.timeout, self.seconds = os.path.join(os.getcwd(), path), timeout, seconds
        self.program = find_program("piql_file", program)
        self.identity: Identity = None
        self.is_gone = False
        self.begin()

    def begin(self) -> Run:
        """Begins a run; where another process has the file, tries again until the time is over."""
        until = time.monotonic() + self.timeout
        while True:
            self.check_there()
            before = identity_of(self.path)
            try:
                self.engine = Engine(self.program, [self.path, "run"], self.seconds)
                break
            except EngineEnded as end:
                if end.status != 5 or not is_locked(self.path):
                    raise self.ended(end, f"{self.path} isn't open.") from end
                if time.monotonic() > until:
                    raise OperationalError(LOCKED.format(path=self.path)) from end
            time.sleep(0.05)
        self.identity = self.identity or before or identity_of(self.path)
        self.check_there()
        return self.engine

    def check_there(self) -> None:
        """Refuses to go on where the file isn't the one that was opened first: no new one is begun in its place."""
        if self.is_gone or self.identity is not None and identity_of(self.path) != self.identity:
            self.is_gone = True
            self.close()
            raise StoreGone(GONE.format(path=self.path))

    def told(self, report: bytes) -> str:
        """A report that has come, if the file is still there then."""
        self.check_there()
        return super().told(report)

    def ended(self, end: EngineEnded, stands: str) -> DatabaseError:
        """The exception of a run that ended. Why a call of the store failed is looked for at the file."""
        cause = cause_of(self.path) if end.status == 5 else ""
        return told_end(end, stands, cause)

    def running(self, statement: bytes) -> Run:
        """A run with room for the statement."""
        engine = self.engine
        if engine is not None and engine.has_room(statement):
            return engine
        self.close()
        return self.begin()

    def stands(self, reads: bool) -> str:
        """What stands where the run ended in mid-statement."""
        return STANDS_READ if reads else STANDS_WRITE

    def backup(self, path: str) -> None:
        """Copies the file between two statements."""
        check_owner(self.owner)
        self.running(b"")
        self.check_there()
        copy_whole(self.path, path, self.program)

    def stored(self) -> list[StoredDefinition]:
        """Ends the run, and reads the definitions of the file, as a run left them that was ended."""
        self.close()
        self.check_there()
        with opened(self.path) as file:
            return stored_definitions(pairs(file, DEFINITIONS))


class MemoryLink(EngineLink):
    """A store in memory, which ends with its run."""

    def __init__(self, program: str | os.PathLike[str] | None, seconds: float | None = None) -> None:
        super().__init__()
        try:
            self.engine = Engine(find_program("piql", program), ["run"], seconds)
        except EngineEnded as end:
            raise self.ended(end, "The store isn't open.") from end

    def running(self, statement: bytes) -> Run:
        """The run, if it has room for the statement."""
        if self.engine is None or not self.engine.has_room(statement):
            self.close()
            raise OperationalError(KEEPS_NOTHING)
        return self.engine

    def stands(self, reads: bool) -> str:
        """What stands where the run ended in mid-statement."""
        return "The rows in memory are lost."

    def backup(self, path: str) -> None:
        """There is no file to copy."""
        raise OperationalError("a store in memory has no file that could be copied")

    def stored(self) -> None:
        """Nothing of a store in memory can be read but by its run."""
