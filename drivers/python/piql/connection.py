"""A connection: the statements that it sends, the definitions that it knows, and the queries that it prepares once."""

import contextlib
import os
import threading
import time
from collections.abc import Callable, Iterator, Sequence
from typing import TYPE_CHECKING

from . import errors
from .counting import counted
from .details import Detail, detail_of, has_detail
from .errors import InterfaceError, InternalError, NotSupportedError, OperationalError, ProgrammingError, refused
from .hosts.link import ReaderLink
from .interrupts import own
from .links import Link
from .lots import Asked, Tell
from .plain import plain_list, plain_path, plain_seconds, plain_text
from .refusals import refusal_of, with_causes
from .reports import Report, Work, read_report
from .scripts import place_at
from .schema import Column, Query, Schema, read_schema
from .selected import columns_of
from .statements import Kind, Sent, Statement, prepare_of, read_statement
from .unprepared import NO_PAGES, UNPREPARED, explain_of, is_no_statement, wanted_index, with_values
from .values import quoted, quoted_text
from .writes import IN_BATCH, write_at

if TYPE_CHECKING:
    from .batch import Batch
    from .cursor import Cursor
    from .pipeline import Pipeline

Parameters = Sequence[object]
Watch = Callable[[Statement, Report], None]
SHOW = read_statement("SHOW")
NO_REPORT = (
    "what came back is no report of such a statement. One that only reads changed nothing, a write was made whole or"
    " not at all, and nothing of the answer is told"
)
UNSENT = "the time of this statement was over before it was sent: nothing was made of it"
NO_ROW = "E504"
NO_ROLLBACK = "nothing is rolled back: each statement is made whole or not at all, at once"


def fillings_of(statement: Statement, parameters: Parameters) -> tuple[str, ...]:
    """The values as the statement writes them, one for each place."""
    values = plain_list(parameters)
    if len(values) != statement.params:
        raise ProgrammingError(f"{counted(statement.params, 'value')} wanted, {len(values)} given")
    return tuple(map(quoted, values))


def asked_of(statement: Statement, parameters: Parameters, after: str | None) -> Sent:
    """A statement with its values, behind a cursor of pages; a SELECT with those of its RUN."""
    kind, values = statement.kind, fillings_of(statement, parameters)
    behind = "" if after is None else f" AFTER {quoted_text(plain_text(after, 'the cursor of a page'))}"
    if behind and not kind.has_pages:
        raise ProgrammingError("only a SELECT or a RUN has pages")
    return Sent(statement, "", statement.numbered() if kind.is_numbered and not kind.is_prepared else values, behind)


class Connection:
    """PEP 249's connection. Each statement is whole or not at all, at once: there is nothing to commit."""

    Warning = errors.Warning
    Error = errors.Error
    InterfaceError = errors.InterfaceError
    DatabaseError = errors.DatabaseError
    DataError = errors.DataError
    OperationalError = errors.OperationalError
    IntegrityError = errors.IntegrityError
    InternalError = errors.InternalError
    ProgrammingError = errors.ProgrammingError
    NotSupportedError = errors.NotSupportedError

    def __init__(self, link: Link, prepare: bool = False, error_on_missing: bool = False) -> None:
        self._link: Link | None = link
        self._lock = threading.RLock()
        self._prepare, self._error_on_missing = prepare, error_on_missing
        # Whether the engine's language has a SELECT as a statement, as far as it is known.
        self._selects = True
        self._schema: Schema | None = None
        self._names: dict[str, str] = {}
        self._sent = self._trips = 0
        self._until: float | None = None
        self._watches: list[Watch] = []
        own(self)
        self.schema()

    def let_go(self) -> None:
        """Has a child that was forked, perhaps beside a thread's statement, not wait for a lock that nobody frees."""
        self._lock = threading.RLock()

    @property
    def autocommit(self) -> bool:
        """True: each statement is whole or not at all, and stands once it is reported."""
        return True

    @property
    def statements(self) -> int:
        """How many statements this connection has sent, those among them that prepare a SELECT and read SHOW."""
        return self._sent

    @property
    def round_trips(self) -> int:
        """How often it has sent something and waited for the answer: once for each statement, and for each pipeline."""
        return self._trips

    @property
    def revision(self) -> int:
        """That of the store behind the last statement, for the `wait_for` of a reader; 0 where a store has none."""
        found: int = getattr(self.link(), "revision", 0)
        return found

    def wait_for(self, revision: int) -> None:
        """Has a reader (`connect(.., reader=True)`) read at least what a writer's revision has, from now on."""
        link = self.link()
        if not isinstance(link, ReaderLink):
            raise NotSupportedError("only a reader waits for a revision: another connection reads what stands")
        if not isinstance(revision, int):
            raise ProgrammingError("a revision is the number that the writer's connection has")
        link.wait_for(revision)

    def link(self) -> Link:
        """What the statements are sent over."""
        if self._link is None:
            raise InterfaceError("the connection is closed")
        return self._link

    @contextlib.contextmanager
    def within(self, seconds: float) -> Iterator[None]:
        """What is sent meanwhile has to be reported within so many seconds, those in which others send among them."""
        until = time.monotonic() + seconds
        if not self._lock.acquire(timeout=seconds):
            raise OperationalError(UNSENT)
        try:
            self._until = until
            yield
        finally:
            self._until = None
            self._lock.release()

    @contextlib.contextmanager
    def watched(self, watch: Watch) -> Iterator[None]:
        """Has each statement that is reported meanwhile told to a function, with its report; refusals too."""
        self._watches.append(watch)
        try:
            yield
        finally:
            self._watches.remove(watch)

    def left(self, until: float) -> float:
        """For how many seconds a statement may still be waited for; one that has none left isn't sent."""
        seconds = until - time.monotonic()
        if seconds <= 0:
            raise OperationalError(UNSENT)
        return seconds

    def is_answered(self, report: Report) -> bool:
        """Whether a refusal is no error: an UPDATE or a DELETE has found no row, and so has written none."""
        return report.end.refusal[0] == NO_ROW and not self._error_on_missing

    def report(self, sent: Sent) -> Report:
        """The report of a statement; a refusal is raised, unless it says that a write has found no row."""
        kind, data = sent.statement.kind, sent.data()
        with self._lock:
            link = self._link or self.link()
            text = link.exchange(data, kind.reads, None if self._until is None else self.left(self._until))
            self._sent += 1
            self._trips += 1
        return self.told(sent, text)

    def exchange_all(self, lot: Sequence[Asked], tell: Tell) -> None:
        """Sends several statements together, and tells what became of each; the caller has the lock."""
        self.link().exchange_all(lot, tell, None if self._until is None else self.left(self._until))
        self._sent += len(lot)
        self._trips += 1

    def told(self, sent: Sent, text: str) -> Report:
        """What has come as the report of a statement, which is told to those who watch; a refusal is raised."""
        kind = sent.statement.kind
        report = self.read(text, kind)
        report.is_selected = kind is Kind.SELECT
        for watch in self._watches:
            watch(sent.statement, report)
        if " refused " in report.ending and not self.is_answered(report):
            raise self.refusal(sent, report.end.refusal)
        if kind.defines:
            self._schema = None
        return report

    def read(self, text: str, kind: Kind) -> Report:
        """A report of a statement of this kind. Behind one that is none the link is closed."""
        try:
            report = read_report(text)
            if (" ok rows " in report.ending) == kind.has_rows or " refused " in report.ending:
                return report
        except ValueError as error:
            self.link().close()
            raise InternalError(NO_REPORT) from error
        self.link().close()
        raise InternalError(NO_REPORT)

    def refusal(self, sent: Sent, fields: tuple[str, ...]) -> errors.DatabaseError:
        """The exception of a refusal; where the tokens spell nothing, with the place in the writer's text."""
        text = sent.statement.text
        if is_no_statement(fields, sent.statement):
            self._selects = False
            return ProgrammingError(UNPREPARED.format(text=text))
        if fields[0] == IN_BATCH:
            return self.refused_write(text, int(fields[1]), fields[2:])
        if fields[0] != "E104":
            detail = self.wanted(sent.statement, fields[1]) if fields[0] == "E406" else self.detail(fields, text)
            return refused(with_causes(refusal_of(fields, text)._replace(**detail._asdict())))
        at = sent.source_at(int(fields[1]))
        return refused(refusal_of(("E104", str(len(text[:at].encode()))), text, place_at(text, at)))

    def refused_write(self, text: str, number: int, fields: tuple[str, ...]) -> errors.DatabaseError:
        """The exception of the refused write of a batch: that of its own refusal, with its number in the batch."""
        write = write_at(text, number)
        refusal = refusal_of(fields, write)._replace(**self.detail(fields, write)._asdict())
        return refused(refusal._replace(statement=text, number_in_batch=number, write=write))

    def detail(self, fields: tuple[str, ...], text: str) -> Detail:
        """What the definitions tell of a refusal. Where they can't be read, the refusal is told without."""
        if not has_detail(fields[0]):
            return Detail()
        try:
            return detail_of(fields, text, self.schema())
        except errors.Error:
            return Detail()

    def wanted(self, select: Statement, table: str) -> Detail:
        """The index of a table that a SELECT wants, as its EXPLAIN tells it."""
        try:
            return wanted_index(select, self.report(explain_of(select)), self.schema())
        except (errors.Error, IndexError):
            return Detail(table=table)

    def answer(
        self, statement: Statement, parameters: Parameters, after: str | None = None, timeout: float | None = None
    ) -> Report:
        """The report of a statement with its values, behind a cursor of pages."""
        if timeout is not None:
            with self.within(plain_seconds(timeout, "timeout")):
                return self.answer(statement, parameters, after)
        sent = asked_of(statement, parameters, after)
        return self.answer_select(sent) if statement.kind.is_prepared else self.report(sent)

    def answer_select(self, sent: Sent) -> Report:
        """The report of a SELECT. Where the file was changed for another, the definitions are read anew."""
        with self._lock:
            try:
                return self.run_select(sent)
            except ProgrammingError as error:
                if error.number != "E401":
                    raise
            self.refresh()
            return self.run_select(sent)

    def run_select(self, sent: Sent) -> Report:
        """The report of the RUN of a SELECT that is prepared, or else of the SELECT itself."""
        if selected := self.selected(sent):
            try:
                return self.report(selected)
            except ProgrammingError:
                # An engine whose language has no such statement has said so.
                if self._selects:
                    raise
        return self.report(sent.run_as(self.names().get(sent.statement.name) or self.define(sent.statement)))

    def selected(self, sent: Sent) -> Sent | None:
        """A SELECT that leaves nothing, with its values in their places; None where it is prepared, or is to be.

        Its further pages want a PREPARE, which another connection may have made meanwhile.
        """
        select = sent.statement
        if self._prepare or select.name in self.names() or select.pages and select.name in self.names(anew=True):
            return None
        if not self._selects:
            return None
        if sent.behind:
            raise NotSupportedError(NO_PAGES)
        return with_values(select, sent.fillings)

    def names(self, anew: bool = False) -> dict[str, str]:
        """The names under which SELECTs are prepared, by those of their tokens; read anew on demand."""
        if anew:
            self.refresh()
        self.schema()
        return self._names

    def prepared_name(self, statement: Statement) -> str | None:
        """The name under which a SELECT is prepared; None where it is still to be, by this connection."""
        if statement.name not in self.names() and not self._prepare:
            return self.define(statement)
        return self._names.get(statement.name)

    def define(self, statement: Statement) -> str:
        """Prepares a SELECT under the name of its tokens, unless another connection has done so meanwhile."""
        if not self._prepare:
            self.refresh()
            if statement.name not in self._names:
                raise ProgrammingError(UNPREPARED.format(text=statement.text))
            return self._names[statement.name]
        try:
            self.report(prepare_of(statement))
        except ProgrammingError as error:
            if error.number != "E201":
                raise
            self.refresh()
        return statement.name

    def schema(self) -> Schema:
        """The definitions of the store, as SHOW lists them."""
        with self._lock:
            if self._schema is None:
                self._schema = read_schema(self.report(Sent(SHOW, "", ())).definitions())
                queries = self._schema.queries()
                self._names = {read_statement(query.select()).name: name for name, query in queries.items()}
                self._names |= {name: name for name in queries}
            return self._schema

    def forget(self) -> None:
        """Has the definitions read anew before they are asked for next."""
        self._schema = None

    def refresh(self) -> Schema:
        """The definitions as they are now, those of other connections among them."""
        self.forget()
        return self.schema()

    def find_query(self, name: str) -> tuple[Schema, Query]:
        """The query that a name or the name of a SELECT's tokens stands for, with the schema."""
        for read in (self.schema, self.refresh):
            schema = read()
            if query := schema.queries().get(self._names.get(name, name)):
                return schema, query
        raise ProgrammingError(f"no query has the name {name}")

    def columns_of(self, select: Statement) -> list[tuple[str, Column]]:
        """The columns of the answer of a SELECT that isn't prepared."""
        try:
            return columns_of(select.text, self.schema())
        except (KeyError, StopIteration):
            return columns_of(select.text, self.refresh())

    def bounds(self) -> dict[str, Work]:
        """Each query of the store with its bound, by an EXPLAIN of its text."""
        found = {}
        for name, query in self.refresh().queries().items():
            report = self.report(Sent(read_statement(f"EXPLAIN {query.select()}"), "", ()))
            found[name] = report.queries()[0].bound
        return found

    def backup(self, path: str | os.PathLike[str]) -> None:
        """Makes a whole copy of the store's file between two statements. The copy has to be a new file."""
        with self._lock:
            self.link().backup(plain_path(path, "the place of a copy"))

    def cursor(self) -> "Cursor":
        """A new cursor."""
        from .cursor import Cursor

        self.link()
        return Cursor(self)

    def execute(
        self, operation: str, parameters: Parameters = (), *, after: str | None = None, timeout: float | None = None
    ) -> "Cursor":
        """A new cursor that has executed the statement."""
        return self.cursor().execute(operation, parameters, after=after, timeout=timeout)

    def pipeline(self, *, timeout: float | None = None, raises: bool = True) -> "Pipeline":
        """Several statements that are sent together, at the end of its `with` block or by its `send`."""
        from .pipeline import Pipeline

        self.link()
        return Pipeline(self, None if timeout is None else plain_seconds(timeout, "timeout"), raises)

    def batch(self, *, timeout: float | None = None) -> "Batch":
        """Several writes that are made as one, at the end of its `with` block or by its `make`: all of them, or none."""
        from .batch import Batch

        self.link()
        return Batch(self, None if timeout is None else plain_seconds(timeout, "timeout"))

    def commit(self) -> None:
        """Does nothing: each statement that was reported stands."""
        self.link()

    def rollback(self) -> None:
        """Refused: a statement that was reported can't be taken back."""
        raise NotSupportedError(NO_ROLLBACK)

    def close(self) -> None:
        """Ends the run. A connection that is closed can't be used."""
        with self._lock:
            if self._link is not None:
                self._link.close()
            self._link = None

    def __enter__(self) -> "Connection":
        return self

    def __exit__(self, *exception: object) -> None:
        self.close()
