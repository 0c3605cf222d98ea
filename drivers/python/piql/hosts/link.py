"""A connection's way to a store behind a host: a run of the engine that this process answers from a backend."""

import os
import time
from collections.abc import Sequence

from ..engine import EngineEnded, find_program
from ..errors import DatabaseError, InternalError, NotSupportedError, OperationalError
from ..lots import Asked, Outcome, Tell
from ..runs import EngineLink, told_end
from ..stored import DEFINITIONS, StoredDefinition, stored_definitions
from .backend import Backend, Fault, Held, Reading, Unreachable
from .host import Host
from .hosted import HostedEngine, Stalled
from .notices import notice
from .wire import BadRequest

Program = str | os.PathLike[str] | None
# For how long it is waited between two looks at a store that another engine has, in seconds.
PAUSE = 1.0
# And between two tries of a reader.
AGAIN = 0.02
STORE_FAULT = 5
STANDS_READ = "This statement changes nothing. The next one opens the store anew."
STANDS_WRITE = (
    "This statement was made whole or not at all; all that was reported as ok before stands."
    " The next statement opens the store anew, which settles it."
)
# The keys of definitions, of which a store has no more.
CATALOG = bytes([DEFINITIONS]), bytes([DEFINITIONS + 1])
DEFINITIONS_MOST = 256
# What a backend raises that stumbles over what a server answered, or over itself.
STRANGE = (ArithmeticError, AttributeError, LookupError, TypeError, ValueError)
UNSENT = "Nothing was sent."
STUMBLED = "the store's backend failed by itself ({kind}). {stands}"
HELD = "another engine has the store: {why}"
ONLY_READS = "this connection only reads; the one that writes is made without reader=True"
NO_COPY = "the copies of {name} are those of its database, as docs/SCALING.md tells"


def stumbled(error: Exception, stands: str) -> InternalError:
    """The exception of a backend that failed by itself. What it says of that may have values, and isn't told."""
    return InternalError(STUMBLED.format(kind=type(error).__name__, stands=stands))


class HostLink(EngineLink):
    """A store that one engine has for itself. `seconds` is for how long one step of a statement may take."""

    def __init__(
        self, name: str, backend: Backend, program: Program = None, timeout: float = 5.0, seconds: float = 60.0
    ) -> None:
        super().__init__()
        self.name, self.backends, self.places = name, [backend], [b""]
        self.program, self.timeout, self.seconds = find_program("piql_host", program), timeout, seconds
        # That of the run at hand.
        self.host = Host(self.backends, self.places)
        # That of the store behind the last statement that was told.
        self.revision = 0

    def begin(self) -> HostedEngine:
        """Begins a run. Where another engine has the store, or no server answers, it tries until the time is over."""
        until = time.monotonic() + self.timeout
        while True:
            self.host = Host(self.backends, self.places)
            try:
                for backend in self.backends:
                    backend.begin()
                self.engine = HostedEngine(self.program, self.host, self.seconds)
                return self.engine
            except Held as held:
                if time.monotonic() > until:
                    raise OperationalError(HELD.format(why=held)) from held
            except Unreachable as why:
                if time.monotonic() > until:
                    raise OperationalError(f"{self.name} isn't open: {why}") from why
                # (A password that is wrong is told by this too.)
                notice(f"{self.name} isn't open yet: {why}")
            except (Fault, Stalled, BadRequest) as error:
                raise OperationalError(f"{self.name} isn't open: {error}") from error
            except EngineEnded as end:
                raise self.ended(end, f"{self.name} isn't open.") from end
            except STRANGE as error:
                raise stumbled(error, f"{self.name} isn't open.") from error
            time.sleep(min(PAUSE, self.timeout / 50))

    def running(self, statement: bytes) -> HostedEngine:
        """A run with room for the statement, over a store that nobody else had meanwhile."""
        engine = self.engine
        if engine is not None and engine.has_room(statement) and all(backend.is_begun() for backend in self.backends):
            return engine
        self.end_run()
        return self.begin()

    def exchange(self, statement: bytes, reads: bool, limit: float | None = None) -> str:
        """The report of the statement."""
        try:
            return super().exchange(statement, reads, limit)
        except STRANGE as error:
            raise stumbled(error, self.stands(reads)) from error

    def exchange_all(self, lot: Sequence[Asked], tell: Tell, limit: float | None = None) -> None:
        """Tells what became of each of several statements."""
        try:
            super().exchange_all(lot, tell, limit)
        except STRANGE as error:
            raise stumbled(error, UNSENT) from error

    def failure(self, error: Exception, reads: bool) -> DatabaseError | None:
        """The exception of a run that ended in a statement, or was; of a backend that failed by itself too."""
        if isinstance(error, BadRequest):
            return OperationalError(f"{error}, so the run was ended. {self.stands(reads)}")
        if isinstance(error, STRANGE):
            return stumbled(error, self.stands(reads))
        return super().failure(error, reads)

    def told(self, report: bytes) -> str:
        """A report that has come; the revision is that of the store behind it."""
        self.revision = self.backends[0].revision
        return super().told(report)

    def ended(self, end: EngineEnded, stands: str) -> DatabaseError:
        """The exception of a run that ended. Why a call of its store failed comes first."""
        return told_end(end, stands, self.host.why)

    def stands(self, reads: bool) -> str:
        """What stands where the run ended in mid-statement."""
        return STANDS_READ if reads else STANDS_WRITE

    def keep(self) -> None:
        """Keeps the store while no statement is at work, for who wants to."""
        if self.engine is not None:
            for backend in self.backends:
                backend.keep()

    def backup(self, path: str) -> None:
        """A cluster is copied by its own means."""
        raise OperationalError(NO_COPY.format(name=self.name))

    def stored(self) -> list[StoredDefinition] | None:
        """Ends the run, and reads the definitions, behind whatever was still asked for of the store."""
        self.end_run()
        try:
            for backend in self.backends:
                backend.begin()
            found = [pair for it in self.backends for pair in it.range(*CATALOG, DEFINITIONS_MOST)]
        except (Fault, Held) as error:
            raise OperationalError(f"{self.name}: {error}") from error
        except STRANGE as error:
            raise stumbled(error, UNSENT) from error
        return stored_definitions(found)

    def end_run(self) -> None:
        """Ends the run, and keeps the store."""
        super().close()

    def close(self) -> None:
        """Ends the run, and gives the store back."""
        self.end_run()
        if self.owner == os.getpid():
            for backend in self.backends:
                backend.close()


class NodesLink(HostLink):
    """Several stores, each with the keys of one range. `places` has where each begins: the empty key, then rising."""

    def __init__(
        self,
        name: str,
        backends: Sequence[Backend],
        places: Sequence[bytes],
        program: Program = None,
        timeout: float = 5.0,
        seconds: float = 60.0,
    ) -> None:
        super().__init__(name, backends[0], find_program("piql_nodes", program), timeout, seconds)
        self.backends, self.places = list(backends), list(places)


class ReaderLink(HostLink):
    """A store beside its writer: each statement is answered at one revision that stands still.

    A statement sees all that was told before it began, or, over a copy that lags behind, a moment before that; with
    `wait_for` at least the writer's revision. What would write is refused before it is sent.
    """

    def __init__(
        self, name: str, backend: Reading, program: Program = None, timeout: float = 5.0, seconds: float = 60.0
    ) -> None:
        super().__init__(name, backend, program, timeout, seconds)
        self.reading = backend
        self.least = 0
        self.definitions: object = None

    def wait_for(self, revision: int) -> None:
        """No statement from now on reads less than what this revision of the writer has."""
        self.least = max(self.least, revision)

    def running(self, statement: bytes) -> HostedEngine:
        """A run at a new revision. Where the definitions are others there, it is a new one, since a run keeps them."""
        engine = self.engine
        if engine is not None and engine.has_room(statement):
            self.pin()
            if self.reading.definitions == self.definitions:
                return engine
        self.end_run()
        self.pin()
        engine = self.begin()
        self.definitions = self.reading.definitions
        return engine

    def stored(self) -> None:
        """The definitions are the writer's, and nothing that is sent here changes them."""

    def pin(self) -> None:
        """Takes a new revision."""
        try:
            self.reading.pin(self.least)
        except Fault as fault:
            raise OperationalError(f"{self.name} can't be read: {fault}") from fault

    def exchange(self, statement: bytes, reads: bool, limit: float | None = None) -> str:
        """The report of a statement that changes nothing."""
        if not reads:
            raise NotSupportedError(ONLY_READS)
        until = time.monotonic() + self.timeout
        while True:
            try:
                return super().exchange(statement, reads, limit)
            except OperationalError as error:
                # What was pinned may be gone, as a snapshot that the server ended, or a revision that was compacted.
                if error.status != STORE_FAULT or time.monotonic() > until:
                    raise
            time.sleep(AGAIN)

    def exchange_all(self, lot: Sequence[Asked], tell: Tell, limit: float | None = None) -> None:
        """Tells what became of each of several statements. Those that change nothing are answered at one revision."""
        reading = [it for it in lot if it.reads]
        found = iter(self.read_all(reading, limit) if reading else [])
        for it in lot:
            tell(next(found) if it.reads else NotSupportedError(ONLY_READS))

    def read_all(self, lot: Sequence[Asked], limit: float | None) -> list[Outcome]:
        """What became of statements that change nothing; all are read anew where one can't be."""
        until = time.monotonic() + self.timeout
        while True:
            found: list[Outcome] = []
            super().exchange_all(lot, found.append, limit)
            if time.monotonic() > until or all(getattr(it, "status", None) != STORE_FAULT for it in found):
                return found
            time.sleep(AGAIN)
