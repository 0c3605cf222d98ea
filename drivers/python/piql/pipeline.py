"""Several statements that are sent together: one round trip over a socket, and one write into an engine's pipe.

    with connection.pipeline() as pipeline:
        ann = pipeline.run("by_name", "ann")
        likes = pipeline.execute("READ likes_of (?)", (7,))
    print(ann.rows, likes.rows)
"""

import contextlib
from typing import TYPE_CHECKING, NamedTuple

from .collecting import Collecting
from .connection import asked_of
from .cursor import rows_of, run_text
from .errors import (
    DatabaseError,
    Error,
    InterfaceError,
    NotBegun,
    NotSupportedError,
    OperationalError,
    PipelineFull,
    ProgrammingError,
)
from .lots import FRAME_HEAD, LOT_BYTES, LOT_STATEMENTS, SIZE, Asked, Outcome
from .reports import Report, Row, Work
from .statements import Sent, prepare_of, read_statement
from .unprepared import NO_PAGES, with_values

if TYPE_CHECKING:
    from .connection import Connection, Parameters

UNSENT = "this statement of a pipeline wasn't sent yet: the end of the `with` block sends it, or send()"
INTERRUPTED = "the wait for the answers was interrupted: this statement was made whole or not at all, or not begun"
NO_ROWS = "this statement of a pipeline has no rows"
FULL = (
    f"a pipeline has at most {LOT_STATEMENTS:,} statements and {LOT_BYTES:,} bytes, with four for each statement and"
    " with the PREPARE of each SELECT that isn't prepared. {what}"
)
NOT_TAKEN = "This statement wasn't taken, and nothing was sent: send() sends those before it."


class Result:
    """What became of one statement of a pipeline: its answer or its exception, once the pipeline was sent."""

    def __init__(self, sent: Sent, data: bytes) -> None:
        self._sent, self._data = sent, data
        self._report: Report | None = None
        self._error: Error | None = None

    @property
    def error(self) -> Error | None:
        """Its exception, or None where it was made."""
        if self._report is None and self._error is None:
            raise InterfaceError(UNSENT)
        return self._error

    def _answer(self) -> Report:
        """Its report; where it has none, its exception is raised."""
        if error := self.error:
            raise error
        assert self._report is not None
        return self._report

    @property
    def rows(self) -> list[Row]:
        """The rows of its answer, or of its page."""
        rows = rows_of(self._sent.statement.kind, self._answer())
        if rows is None:
            raise ProgrammingError(NO_ROWS)
        return rows

    @property
    def row(self) -> Row | None:
        """The first row of its answer, or None."""
        return next(iter(self.rows), None)

    @property
    def rowcount(self) -> int:
        """How many rows its answer has, or how many it has written; -1 where it is neither."""
        kind, report = self._sent.statement.kind, self._answer()
        rows = rows_of(kind, report)
        if rows is not None:
            return len(rows)
        made = 0 if report.is_refused() else self._sent.statement.rows
        return made if kind.writes else -1

    @property
    def next_page(self) -> str | None:
        """The cursor after a full page. The further pages of a SELECT want a PREPARE; without one this says so."""
        report = self._answer()
        if report.is_selected and self._sent.statement.pages:
            raise NotSupportedError(NO_PAGES)
        return report.end.cursor

    @property
    def bound(self) -> Work:
        """What it may use at most."""
        return self._answer().end.bound

    @property
    def used(self) -> Work:
        """What it has used."""
        return self._answer().end.used


class Line(NamedTuple):
    """A statement that is sent for one of a pipeline, with its bytes: itself, or what prepares it."""

    result: Result
    sent: Sent
    data: bytes
    prepares: bool = False


class Pipeline(Collecting):
    """Collects statements, and sends them together. It belongs to one thread, as a cursor does.

    Each is made or refused by itself, in their order, and what follows a refusal goes on. Where `raises` holds, the
    exception of the first that has one is raised once all have come; each result keeps its own.
    """

    def __init__(self, connection: "Connection", timeout: float | None, raises: bool) -> None:
        self.connection, self.timeout, self.raises = connection, timeout, raises
        self._forget()

    def _forget(self) -> None:
        """No statement is collected."""
        self._results: list[Result] = []
        self._bytes, self._count = FRAME_HEAD, 0
        self._unprepared: set[str] = set()

    def __len__(self) -> int:
        """How many statements are collected."""
        return len(self._results)

    def execute(self, operation: str, parameters: "Parameters" = (), *, after: str | None = None) -> Result:
        """Collects a statement; what is wrong with its values is told at once."""
        statement = read_statement(operation)
        sent = asked_of(statement, parameters, after)
        data = (sent.run_as(statement.name) if statement.kind.is_prepared else sent).data()
        sizes = self._sizes(sent, len(data))
        room = sum(sizes) + SIZE.size * len(sizes)
        if self._count + len(sizes) > LOT_STATEMENTS or self._bytes + room > LOT_BYTES:
            raise PipelineFull(FULL.format(what=NOT_TAKEN))
        self._unprepared |= {statement.name} if statement.kind.is_prepared else set()
        self._bytes += room
        self._count += len(sizes)
        self._results.append(Result(sent, data))
        return self._results[-1]

    def _sizes(self, sent: Sent, size: int) -> list[int]:
        """How many bytes may be sent for a statement: for a SELECT its RUN and what prepares it once, or itself."""
        statement = sent.statement
        if not statement.kind.is_prepared:
            return [size]
        if not self.connection._prepare:
            return [max(size, len(with_values(statement, sent.fillings).data()))]
        # The name of a SELECT that is prepared under another one isn't longer.
        return [size] if statement.name in self._unprepared else [size, len(prepare_of(statement).data())]

    def run(self, name: str, *values: object, after: str | None = None) -> Result:
        """Collects the RUN of a prepared query by its name, with its values."""
        return self.execute(run_text(name, values), values, after=after)

    def send(self) -> None:
        """Sends what is collected, and fills the results. The pipeline is empty then, and may collect anew."""
        results, within = self._results, self._within()
        self._forget()
        if not results:
            return
        try:
            with within:
                self._exchange(results)
        except Error as error:
            # Nothing was sent.
            fill(results, NotBegun(str(error)))
            raise
        except BaseException:
            fill(results, OperationalError(INTERRUPTED))
            raise
        finally:
            place(results)
        failed = next((it._error for it in results if it._error is not None), None)
        if self.raises and failed is not None:
            raise failed

    def _within(self) -> contextlib.AbstractContextManager[None]:
        """What holds the limit of time."""
        return contextlib.nullcontext() if self.timeout is None else self.connection.within(self.timeout)

    def _exchange(self, results: list[Result]) -> None:
        """Sends the statements, and reads what became of each."""
        outcomes: list[Outcome] = []
        with self.connection._lock:
            lines = self._lines(results)
            try:
                if lines:
                    lot = [Asked(it.data, it.sent.statement.kind.reads) for it in lines]
                    self.connection.exchange_all(lot, outcomes.append)
            finally:
                for line, outcome in zip(lines, outcomes):
                    self._read(line, outcome)

    def _lines(self, results: list[Result]) -> list[Line]:
        """What is sent for the statements: of a SELECT its RUN, behind what prepares it once, or itself."""
        lines, unprepared = [], set()
        for result in results:
            statement = result._sent.statement
            if not statement.kind.is_prepared:
                lines.append(Line(result, result._sent, result._data))
                continue
            try:
                selected = self.connection.selected(result._sent)
                name = None if selected else self.connection.prepared_name(statement)
            except DatabaseError as error:
                result._error = error
                continue
            if selected:
                lines.append(Line(result, selected, selected.data()))
                continue
            if name is None and statement.name not in unprepared:
                unprepared.add(statement.name)
                prepare = prepare_of(statement)
                lines.append(Line(result, prepare, prepare.data(), True))
            run = result._sent.run_as(name or statement.name)
            lines.append(Line(result, run, run.data()))
        return lines

    def _read(self, line: Line, outcome: Outcome) -> None:
        """Fills a result by what became of its statement, or of what prepares it."""
        result = line.result
        try:
            if isinstance(outcome, Error):
                raise outcome
            report = self.connection.told(line.sent, outcome)
        except Error as error:
            if line.prepares and error.number == "E201":
                # Another connection has prepared it meanwhile.
                self.connection.forget()
            elif result._error is None:
                result._error = error
            if line.sent.statement.kind.is_run and error.number == "E401":
                self.connection.forget()
        else:
            if not line.prepares and result._error is None:
                result._report = report

    def _finish(self) -> None:
        """Sends what is collected."""
        self.send()


def fill(results: list[Result], error: Error) -> None:
    """Gives an exception to each that has neither that nor an answer."""
    for result in results:
        if result._report is None and result._error is None:
            result._error = type(error)(*error.args)
            result._error.__cause__ = error.__cause__


def place(results: list[Result]) -> None:
    """Has each exception say which statement of the pipeline it was."""
    for number, result in enumerate(results, 1):
        error = result._error
        if error is not None and error.position is None:
            error.position = number
            error.args = (f"statement {number} of {len(results)}: {error}",)
