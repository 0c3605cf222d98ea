"""One run of the engine as a process: a statement goes in, its report comes out before the next one is sent."""

import os
import re
import select
import shutil
import subprocess
import time
from collections.abc import Callable, Sequence
from pathlib import Path

from .allocator import engine_environment
from .errors import InterfaceError, InternalError
from .interrupts import is_of_call, own
from .plain import plain_path
from .scripts import SCRIPT_BYTES
from .wholeness import UNMATCHED, Growing, Reports, check_report, check_statement

CHUNK = 1 << 16
DIGITS = b"0123456789"
OVER = "the statement's time was over"
STILL = "the engine stood still for {seconds:g} seconds"
# The rights that a file which a run makes has for nobody but its owner.
OTHERS = 0o077
OPENING = re.compile(rb"open [^\n]*+\n")
DAMAGE = re.compile(rb"damaged ((?:[0-9a-f]{2})++)\n\Z")
# What a pair is, by the first byte of its key.
PAIRS = {1: "a definition", 2: "a row", 3: "an entry of an index", 4: "the intent of a write", 5: "a counter's group"}
TOP = Path(__file__).resolve().parents[3]
# Where a program stands in a release, and in the repository once it is built.
BUILT = ("programs/{name}", "crates/{name}/out/{name}")


class EngineEnded(Exception):
    """The process ended where a report was awaited: its status, negative for a signal, and what it wrote last.

    `written` says of which kind a damaged pair is, and neither its key nor anything of a half report, as these have
    what the rows have. `damaged` is the key in hexadecimal, or None.
    """

    def __init__(self, status: int, written: bytes) -> None:
        super().__init__(status)
        self.status = status
        found = DAMAGE.search(written)
        self.damaged = found[1].decode() if found else None
        self.written = f"The pair is {kind_of(bytes.fromhex(self.damaged))}." if self.damaged else ""


class Stalled(Exception):
    """The engine, or the store behind its host, took longer for one step than it may. The run was ended."""


def kind_of(key: bytes) -> str:
    """What the pair at a key is, for a reader; of a row and an entry the number of its table."""
    kind = PAIRS.get(key[0], "of no kind that the engine writes")
    return f"{kind} of table {key[1]}" if key[0] in (2, 3) and len(key) > 1 else kind


def find_program(name: str, given: str | os.PathLike[str] | None = None) -> str:
    """The program of this name: the given one, that of the environment (PIQL_FILE, PIQL), the built one, or PATH's."""
    built = [str(path) for place in BUILT if os.access(path := TOP / place.format(name=name), os.X_OK)]
    if given is not None:
        return plain_path(given, "the program")
    found = os.environ.get(name.upper()) or next(iter(built), None) or shutil.which(name)
    if found is None:
        way = f"bin/prove {name} builds it, and {name.upper()} or program= names it"
        raise InterfaceError(f"the program {name} isn't found: {way}")
    return found


def is_report(text: bytes) -> bool:
    """Whether a text ends as a report does: no quote is open, and its last line begins with a digit."""
    if text[-1:] != b"\n" or text.count(b"'") % 2:
        return False
    start = text.rfind(b"\n", 0, -1) + 1
    return text[start] in DIGITS and text.find(b"'", start) < 0


class Engine:
    """A process that was begun, and has written its opening line.

    `seconds` is for how long it may take for a statement, and for its end; None is without an end. A statement may
    have a limit of its own besides. An opening has none: it settles what an earlier run left, and what is ended there
    is to be done again by the next one.
    """

    def __init__(self, program: str, words: list[str], seconds: float | None = None) -> None:
        self.seconds = seconds
        try:
            # A process group of its own: an interrupt at the terminal is the driver's, and doesn't end a write.
            self.process = subprocess.Popen(
                [program, *words],
                stdin=subprocess.PIPE,
                stdout=subprocess.PIPE,
                bufsize=0,
                process_group=0,
                umask=OTHERS,
                env=engine_environment(),
            )
        except OSError as error:
            # One without a number is no error of the system: a signal's handler has raised it.
            if error.errno is None:
                raise
            raise InterfaceError(f"{program} can't be started: {error.strerror}") from error
        assert self.process.stdin is not None and self.process.stdout is not None
        self.into, self.out_of = self.process.stdin.fileno(), self.process.stdout.fileno()
        os.set_blocking(self.into, False)
        self.ready, self.writable = select.poll(), select.poll()
        self.ready.register(self.out_of, select.POLLIN)
        self.writable.register(self.into, select.POLLOUT)
        # When the report has to be there, by the limit of steps and by that of the statement.
        self.until: float | None = None
        self.deadline: float | None = None
        own(self)
        # How many bytes and how many statements were sent.
        self.sent = self.statements = 0
        try:
            self.opening = self.opened()
        except BaseException:
            self.kill()
            raise

    def has_room(self, statement: bytes) -> bool:
        """Whether the script is no longer than it may be with the statement."""
        return self.sent + len(statement) <= SCRIPT_BYTES

    def exchange(self, statement: bytes, limit: float | None = None) -> bytes:
        """The report of one statement. Whatever stops this ends the process: a report would be left in the pipe."""
        check_statement(statement)
        self.deadline = None if limit is None else time.monotonic() + limit
        try:
            self.sent += len(statement)
            self.statements += 1
            report = self.answered(statement)
            check_report(report, self.statements)
            return report
        except BaseException:
            self.kill()
            raise

    def exchange_all(
        self, statements: Sequence[bytes], tell: Callable[[bytes], None], limit: float | None = None
    ) -> None:
        """Sends several statements at once, and tells the report of each in their order.

        Whatever stops this ends the process. Behind an EngineEnded and a Stalled all is told that was reported: the
        engine writes a report before it begins the next statement, so the first one that isn't told was made or not,
        and those behind it weren't begun. Behind anything else each that isn't told was made or not.
        """
        for statement in statements:
            check_statement(statement)
        self.deadline = None if limit is None else time.monotonic() + limit
        reports = Reports(self.statements, statements, tell)
        data = b"".join(statements)
        try:
            self.sent += len(data)
            self.statements += len(statements)
            self.answer_all(memoryview(data), reports)
        except Stalled:
            self.read_out(reports)
            raise
        except BaseException:
            self.kill()
            raise

    def read_out(self, reports: Reports) -> None:
        """Ends the process, and takes what it had written."""
        try:
            self.process.kill()
            self.process.wait()
            os.set_blocking(self.out_of, False)
            while part := self.read_some():
                reports.take(part)
        finally:
            self.close()

    def read_some(self) -> bytes:
        """What is there to read of a process that has ended."""
        try:
            return os.read(self.out_of, CHUNK)
        except BlockingIOError as error:
            if not is_of_call(error):
                raise
            return b""

    def answer_all(self, left: memoryview, reports: Reports) -> None:
        """Writes what is left of statements as far as there is room, and takes their reports as they come."""
        self.check_unasked()
        both = select.poll()
        both.register(self.out_of, select.POLLIN)
        both.register(self.into, select.POLLOUT)
        self.until = self.end_of_step()
        while not reports.is_whole():
            if left:
                done = self.write_some(left)
                left = left[done:]
                reports.sent += done
            if left and self.out_of not in dict(self.wait(both, self.until)):
                continue
            before = reports.told
            reports.take(self.read(reports.text))
            if reports.told > before:
                self.until = self.end_of_step()

    def opened(self) -> bytes:
        """The opening line."""
        text = self.read(b"")
        while b"\n" not in text or text.startswith(b"damaged "):
            text += self.read(text)
        if not OPENING.fullmatch(text):
            raise InternalError(UNMATCHED)
        return text

    def answered(self, statement: bytes) -> bytes:
        """The report of one statement."""
        self.check_unasked()
        self.until = self.end_of_step()
        self.write(statement)
        text = self.read(b"")
        return text if is_report(text) else self.read_on(text)

    def check_unasked(self) -> None:
        """Refuses to send anything where something has come that nobody asked for."""
        # A process that has ended has closed its end, which is told as another event.
        if (unasked := self.ready.poll(0)) and unasked[0][1] & select.POLLIN:
            raise InternalError(UNMATCHED)

    def end_of_step(self) -> float | None:
        """When a step that begins now has to be over."""
        if self.seconds is None:
            return self.deadline
        end = time.monotonic() + self.seconds
        return end if self.deadline is None else min(end, self.deadline)

    def write(self, text: bytes) -> None:
        """Writes all of it within a step, if the process reads on. If not, the read that follows tells how it ended."""
        until = self.end_of_step()
        done = self.write_some(text)
        while done < len(text):
            self.wait(self.writable, until)
            done += self.write_some(text[done:])

    def write_some(self, text: bytes | memoryview) -> int:
        """Writes what there is room for; how much that is. To a process that has ended all of it is written."""
        try:
            return os.write(self.into, text)
        except (BlockingIOError, BrokenPipeError) as error:
            if not is_of_call(error):
                raise
            return 0 if isinstance(error, BlockingIOError) else len(text)

    def wait(self, pipe: select.poll, until: float | None) -> list[tuple[int, int]]:
        """Waits until there is something to read, or room to write; what there is."""
        left = None if until is None else max(0.0, until - time.monotonic()) * 1000
        if not (found := pipe.poll(left)):
            is_late = self.deadline is not None and time.monotonic() >= self.deadline
            raise Stalled(OVER if is_late else STILL.format(seconds=self.seconds))
        return found

    def read(self, before: bytes | bytearray) -> bytes:
        """What is written next, behind what was read before."""
        if self.until is not None:
            self.wait(self.ready, self.until)
        part = os.read(self.out_of, CHUNK)
        if not part:
            raise EngineEnded(self.close(), bytes(before))
        return part

    def read_on(self, first: bytes) -> bytes:
        """A report behind its first part."""
        growing = Growing(first)
        while not growing.is_whole():
            growing.text += self.read(growing.text)
        return bytes(growing.text)

    def has_ended(self) -> bool:
        """Whether the run is over, by itself or since an exchange was stopped."""
        return self.process.returncode is not None

    def close(self) -> int:
        """Ends the script, and waits for the end of the run; its status. One that doesn't end in time is killed."""
        self.let_go()
        try:
            return self.process.wait(self.seconds)
        except subprocess.TimeoutExpired:
            self.process.kill()
            return self.process.wait()

    def let_go(self) -> None:
        """Closes this process's ends of the pipes."""
        if self.process.stdin is not None and self.process.stdout is not None:
            self.process.stdin.close()
            self.process.stdout.close()

    def kill(self) -> None:
        """Ends the process, if it hasn't ended."""
        self.process.kill()
        self.close()
