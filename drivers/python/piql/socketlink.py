"""A connection's way to piql-serve: its statements go over a Unix socket, and reports come back."""

import json
import os
import time
from collections.abc import Sequence

from .errors import (
    DatabaseError,
    InternalError,
    NotBegun,
    NotSupportedError,
    OperationalError,
    ProgrammingError,
    with_status,
)
from .frames import (
    BACKUP,
    BROKEN,
    COPIED,
    ENDED,
    GREETING,
    HELLO,
    LIMITED,
    LIMITS,
    MANY,
    REPORT,
    STATEMENT,
    UNBEGUN,
    FrameError,
    Gone,
    many_text,
    read_frame,
    write_frame,
)
from .lots import Asked, Tell, Told
from .runs import check_owner
from .timed import Broken, Late, TimedSocket
from .wholeness import check_statement, number_of

# A report has at most 1,000 rows, each of at most six stored rows.
ANSWER_BYTES = 1 << 27
# A server that is there has as long for its first word, in seconds, however short the time is that was asked for.
GREETING_SECONDS = 1.0
# For how much longer than a statement's limit its client waits, so that the server can tell what became of it.
GRACE_SECONDS = 1.0
MADE_OR_NOT = (
    "the statement was made or not made, and isn't sent again by itself. The next statement connects anew; ask for the"
    " row to see which"
)
LOST = f"the server went away before its report came: {MADE_OR_NOT}"
LOST_READ = "the server went away before its report came: this statement changes nothing"
OLDER = (
    "the server takes no frame of several statements, since it is older than this package, and it made none of these:"
    " {said}. Start it anew from the version of this package, or send the statements one by one"
)
LATE = "the server gave no report for {seconds:g} seconds: {stands}"
NOTHING = "this statement changes nothing. The next one connects anew"
NO_ANSWER = (
    "the server's answer is none of its frames. A statement that only reads changed nothing, a write was made whole or"
    " not at all, and nothing of the answer is told"
)


def told_end(said: bytes) -> DatabaseError:
    """The exception of a run that ended behind the server, as its frame tells it."""
    try:
        told = json.loads(said)
        status, text = told["status"], told["text"]
    except (ValueError, KeyError, TypeError, RecursionError):
        return InternalError(NO_ANSWER)
    if not isinstance(text, str) or not (status is None or type(status) is int):
        return InternalError(NO_ANSWER)
    return with_status(status, text)


def milliseconds(seconds: float | None) -> int:
    """A limit as a frame has it, where 0 says that there is none."""
    return 0 if seconds is None else max(1, round(min(seconds * 1000, 2.0**32 - 1)))


def stands(asked: Asked) -> str:
    """What stands where a statement's report doesn't come."""
    return NOTHING if asked.reads else MADE_OR_NOT


class SocketLink:
    """A server's socket. A statement that only reads is sent again where the server was stopped and started.

    `timeout` is for how many seconds a server that isn't there is tried again, `seconds` for how long it may take for a
    report, the statements of others before this one among it; None is without an end. An index may be made over `rows`
    rows where the server allows fewer.
    """

    def __init__(self, path: str, timeout: float, seconds: float | None = None, rows: int = 0) -> None:
        self.path, self.timeout, self.seconds, self.rows = path, timeout, seconds, rows
        self.owner = os.getpid()
        self.socket: TimedSocket | None = None
        self.reach()

    def reach(self) -> TimedSocket:
        """The connected socket; where no server is there, tries again until the time is over."""
        check_owner(self.owner)
        until = time.monotonic() + self.timeout
        while self.socket is None:
            try:
                self.socket = self.greeted(max(until, time.monotonic() + GREETING_SECONDS))
            except (Broken, Gone, Late) as error:
                if time.monotonic() > until:
                    why = str(error) or "it says nothing"
                    raise OperationalError(f"no piql-serve answers at {self.path}: {why}") from error
                time.sleep(0.05)
        return self.socket

    def greeted(self, until: float) -> TimedSocket:
        """A new socket on which the server has said hello."""
        made = TimedSocket(self.path, until)
        try:
            kind, text = read_frame(made, ANSWER_BYTES)
        except FrameError as error:
            made.let_go()
            raise OperationalError(f"what listens at {self.path} is no piql-serve") from error
        except BaseException:
            made.let_go()
            raise
        if kind == HELLO and text == GREETING:
            return made
        made.let_go()
        raise OperationalError(f"the server at {self.path} says: {text.decode(errors='replace')}")

    def exchange(self, statement: bytes, reads: bool, limit: float | None = None) -> str:
        """The report of the statement."""
        check_statement(statement)
        seconds = min((it for it in (self.seconds, limit) if it is not None), default=None)
        try:
            return self.reported(statement, seconds)
        except Late as error:
            stands = NOTHING if reads else MADE_OR_NOT
            raise OperationalError(LATE.format(seconds=seconds, stands=stands)) from error
        except (Broken, Gone) as error:
            if not reads:
                raise OperationalError(LOST) from error
        try:
            return self.reported(statement, seconds)
        except Late as error:
            raise OperationalError(LATE.format(seconds=seconds, stands=NOTHING)) from error
        except (Broken, Gone) as error:
            raise OperationalError(f"the server went away twice before its report came: {NOTHING}") from error

    def reported(self, statement: bytes, seconds: float | None) -> str:
        """The one whole report that the server sends. Its number is that of the server's run, which checks it."""
        kind, text = STATEMENT, statement
        if seconds is not None or self.rows:
            kind, text = LIMITED, LIMITS.pack(milliseconds(seconds), self.rows) + statement
        # The server's own word comes first: it knows whether the statement was still waiting.
        report = self.asked(kind, text, REPORT, None if seconds is None else seconds + GRACE_SECONDS)
        if number_of(report) is None:
            self.close()
            raise InternalError(NO_ANSWER)
        return report.decode()

    def exchange_all(self, lot: Sequence[Asked], tell: Tell, limit: float | None = None) -> None:
        """Sends several statements in one frame, and tells what became of each.

        Where the server goes away and only reads are left, these are sent once more.
        """
        for it in lot:
            check_statement(it.statement)
        told = Told(lot, tell)
        for is_last in (False, True):
            try:
                return self.answer_all(told, limit)
            except Late:
                seconds = min(it for it in (self.seconds, limit) if it is not None)
                return told.rest(lambda it: OperationalError(LATE.format(seconds=seconds, stands=stands(it))))
            except (Broken, Gone):
                if is_last or not all(it.reads for it in told.left()):
                    return told.rest(lambda it: OperationalError(LOST_READ if it.reads else LOST))

    def answer_all(self, told: Told, limit: float | None) -> None:
        """Sends those that are left, and tells what the server answers. Whatever stops this closes the socket."""
        seconds = min((it for it in (self.seconds, limit) if it is not None), default=None)
        until = None if limit is None else time.monotonic() + limit + GRACE_SECONDS
        text = many_text(milliseconds(limit), self.rows, [it.statement for it in told.left()])
        try:
            reached = self.send_all(text, seconds)
            while told.left():
                step = None if self.seconds is None else time.monotonic() + self.seconds + GRACE_SECONDS
                reached.until = min((it for it in (until, step) if it is not None), default=None)
                self.take(told, *read_frame(reached, ANSWER_BYTES))
        except FrameError:
            self.close()
            told.rest(lambda _: InternalError(NO_ANSWER))
        except BaseException:
            self.close()
            raise

    def send_all(self, text: bytes, seconds: float | None) -> TimedSocket:
        """Sends a frame of several statements. What a server says that doesn't take it whole can still be read."""
        try:
            return self.send(MANY, text, seconds)
        except Broken as error:
            if not error.sent or self.socket is None:
                raise
            return self.socket

    def take(self, told: Told, kind: bytes, said: bytes) -> None:
        """Takes a frame that answers one of several statements, or all that are left."""
        if kind == REPORT and number_of(said) is not None:
            return told.one(said.decode())
        if kind == ENDED:
            return told.one(told_end(said))
        text = said.decode(errors="replace")
        if kind == UNBEGUN:
            return told.rest(lambda _: NotBegun(text))
        self.close()
        if kind != BROKEN:
            return told.rest(lambda _: InternalError(NO_ANSWER))
        if text.startswith("a frame"):
            return told.rest(lambda _: NotSupportedError(OLDER.format(said=text)))
        told.rest(lambda _: NotBegun(f"the server left this client: {text}"))

    def send(self, kind: bytes, text: bytes, seconds: float | None) -> TimedSocket:
        """Sends a frame. One of which the kernel took nothing is sent anew: its server was stopped before."""
        try:
            return self.sent(kind, text, seconds)
        except Broken as error:
            if error.sent:
                raise
            self.close()
        return self.sent(kind, text, seconds)

    def sent(self, kind: bytes, text: bytes, seconds: float | None) -> TimedSocket:
        """The connected socket, on which a frame was sent."""
        reached = self.reach()
        reached.until = None if seconds is None else time.monotonic() + seconds
        write_frame(reached, kind, text)
        return reached

    def asked(self, kind: bytes, text: bytes, wanted: bytes, seconds: float | None) -> bytes:
        """The text of the frame that answers one. Whatever stops this closes the socket: an answer would be left."""
        try:
            answer, said = read_frame(self.send(kind, text, seconds), ANSWER_BYTES)
        except FrameError as error:
            self.close()
            raise InternalError(NO_ANSWER) from error
        except BaseException:
            self.close()
            raise
        if answer == wanted:
            return said
        if answer == ENDED:
            raise told_end(said)
        self.close()
        if answer == BROKEN:
            raise ProgrammingError(said.decode(errors="replace"))
        raise InternalError(NO_ANSWER)

    def backup(self, path: str) -> None:
        """Has the server copy its file between two statements."""
        try:
            self.asked(BACKUP, os.fsencode(os.path.abspath(path)), COPIED, self.seconds)
        except (Broken, Gone) as error:
            raise OperationalError(f"the server went away before it told that {path} is whole") from error
        except Late as error:
            why = f"the server didn't tell within {self.seconds:g} seconds that {path} is whole"
            raise OperationalError(why) from error

    def stored(self) -> None:
        """The store is the server's."""

    def close(self) -> None:
        """Closes the socket."""
        if self.socket is not None:
            self.socket.let_go()
        self.socket = None
