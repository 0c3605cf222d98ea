"""A cursor: executes statements and hands out the rows of the last one."""

from collections.abc import Iterable, Sequence
from typing import TYPE_CHECKING, NamedTuple

from .collecting import Reported
from .errors import InterfaceError, NotSupportedError, ProgrammingError
from .plain import plain_list, plain_rows, plain_text
from .reports import Report, Row
from .scripts import NAME, pieces
from .statements import Kind, Statement, check_utf8, read_statement
from .unprepared import NO_PAGES

if TYPE_CHECKING:
    from .connection import Connection, Parameters


class ColumnDescription(NamedTuple):
    """PEP 249's seven items of a column. The sizes of a TEXT are its most bytes."""

    name: str
    type_code: str
    display_size: int | None = None
    internal_size: int | None = None
    precision: int | None = None
    scale: int | None = None
    null_ok: bool | None = None


SHOWN = (ColumnDescription("number", "INT", null_ok=False), ColumnDescription("definition", "TEXT", null_ok=False))
COUNTED = (ColumnDescription("rows", "INT", null_ok=False),)
EXPLAINED = (
    ColumnDescription("way", "TEXT", null_ok=False),
    ColumnDescription("operations", "INT", null_ok=False),
    ColumnDescription("entries", "INT", null_ok=False),
    ColumnDescription("index", "TEXT", null_ok=True),
)


def explained(report: Report) -> list[Row]:
    """The one row of an EXPLAIN: the way, the bound, and the index that a PREPARE would make, or None."""
    index = "".join(f"{it.table} ({', '.join(it.columns)})" for it in report.indexes())
    return [(query.way, query.bound.operations, query.bound.entries, index or None) for query in report.queries()]


def run_text(given: object, values: Sequence[object]) -> str:
    """The RUN of the prepared query of this name, with a place for each of the values."""
    name = plain_text(given, "the name of a query")
    if NAME.fullmatch(name) is None:
        raise ProgrammingError("the name of a query is letters, digits and _, and begins with no digit")
    return f"RUN {name} ({', '.join('?' * len(values))})"


def rows_of(kind: Kind, report: Report) -> list[Row] | None:
    """The rows that a statement is answered, or None for one without an answer."""
    if kind.has_rows:
        return report.rows
    if kind is Kind.SHOW:
        return [(line.number, line.text) for line in report.definitions()]
    return explained(report) if kind is Kind.EXPLAIN else None


class Cursor(Reported):
    """PEP 249's cursor, with the bound, what was used and the next page."""

    def __init__(self, connection: "Connection") -> None:
        self.connection = connection
        self.arraysize = 1
        self.lastrowid: None = None
        self._closed = False
        self._forget()

    def _forget(self) -> None:
        """No statement was executed."""
        self._statement: Statement | None = None
        self._report: Report | None = None
        self._rows: list[Row] | None = None
        self._at = 0
        self._made = -1
        self._described: Sequence[ColumnDescription] | None = None

    def _open(self) -> "Connection":
        """The connection, unless the cursor is closed."""
        if self._closed:
            raise InterfaceError("the cursor is closed")
        return self.connection

    @property
    def rowcount(self) -> int:
        """How many rows the answer has, or how many were written; -1 where it is neither."""
        return self._made if self._rows is None else len(self._rows)

    @property
    def next_page(self) -> str | None:
        """The cursor behind a full page, to be handed to execute as `after`.

        The further pages of a SELECT want a PREPARE. Where it has none, this says so, and isn't the end of its rows.
        """
        if self.wants_prepare:
            raise NotSupportedError(NO_PAGES)
        return None if self._report is None else self._report.end.cursor

    @property
    def wants_prepare(self) -> bool:
        """Whether the last statement was a SELECT with PAGINATE that isn't prepared: its first page is all it has."""
        is_selected = self._report is not None and self._report.is_selected
        return is_selected and self._statement is not None and self._statement.pages

    def execute(
        self, operation: str, parameters: "Parameters" = (), *, after: str | None = None, timeout: float | None = None
    ) -> "Cursor":
        """Executes one statement with a value for each `?`; `after` is the next_page of the page before.

        `timeout` is for how many seconds it may take; then an OperationalError says what stands.
        """
        connection = self._open()
        self._forget()
        statement = read_statement(operation)
        report = self._report = connection.answer(statement, parameters, after, timeout)
        self._statement = statement
        self._rows = rows_of(statement.kind, report)
        if statement.kind.writes:
            self._made = 0 if report.is_refused() else statement.rows
        return self

    def executemany(self, operation: str, seq_of_parameters: Iterable["Parameters"]) -> "Cursor":
        """Executes a write once for each list of values, until one is refused; rowcount is how many rows it wrote."""
        connection = self._open()
        self._forget()
        statement = read_statement(operation)
        if statement.kind.has_rows or statement.kind in (Kind.SHOW, Kind.EXPLAIN):
            raise ProgrammingError("executemany is for statements without an answer")
        self._made = 0
        for parameters in plain_rows(seq_of_parameters):
            self._report = report = connection.answer(statement, parameters)
            self._made += 0 if report.is_refused() else statement.rows
        return self

    def executescript(self, script: str) -> "Cursor":
        """Executes each statement of a script, until one is refused. Beyond PEP 249."""
        text = plain_text(script, "a script")
        check_utf8(text)
        data = text.encode()
        for piece in pieces(data):
            self.execute(data[piece.start : piece.end].decode())
        return self

    def callproc(self, procname: str, parameters: "Parameters" = ()) -> "Parameters":
        """Runs the prepared query of this name with its parameters."""
        values = plain_list(parameters)
        self.execute(run_text(procname, values), values)
        return parameters

    @property
    def description(self) -> Sequence[ColumnDescription] | None:
        """The columns of the answer, or None for a statement without one."""
        if self._described is None and self._statement is not None:
            self._described = self._describe(self._statement)
        return self._described

    def _describe(self, statement: Statement) -> Sequence[ColumnDescription] | None:
        if not statement.kind.has_pages:
            return {Kind.SHOW: SHOWN, Kind.EXPLAIN: EXPLAINED, Kind.READ: COUNTED}.get(statement.kind)
        if self._report is not None and self._report.is_selected:
            columns = self._open().columns_of(statement)
        else:
            schema, query = self._open().find_query(statement.name)
            columns = schema.columns_of(query)
        return tuple(ColumnDescription(name, it.type, it.size, it.size, null_ok=it.nullable) for name, it in columns)

    @property
    def rownumber(self) -> int | None:
        """The place of the next row, from 0."""
        return None if self._rows is None else self._at

    def _answer(self) -> list[Row]:
        """The rows of the last statement."""
        self._open()
        if self._rows is None:
            raise ProgrammingError("the last statement of this cursor has no rows")
        return self._rows

    def fetchone(self) -> Row | None:
        """The next row, or None."""
        rows = self._answer()
        if self._at >= len(rows):
            return None
        self._at += 1
        return rows[self._at - 1]

    def fetchmany(self, size: int | None = None) -> list[Row]:
        """The next rows, so many or as arraysize says."""
        rows, count = self._answer(), self.arraysize if size is None else size
        if not isinstance(count, int) or count < 0:
            raise ProgrammingError("fetchmany takes a whole number of rows, from 0")
        start, self._at = self._at, min(self._at + count, len(rows))
        return rows[start : self._at]

    def fetchall(self) -> list[Row]:
        """All rows that are left."""
        rows = self._answer()
        start, self._at = self._at, len(rows)
        return rows[start:]

    def __iter__(self) -> "Cursor":
        return self

    def __next__(self) -> Row:
        row = self.fetchone()
        if row is None:
            raise StopIteration
        return row

    def setinputsizes(self, sizes: Sequence[object]) -> None:
        """Does nothing."""

    def setoutputsize(self, size: int, column: int | None = None) -> None:
        """Does nothing."""

    def close(self) -> None:
        """Forgets the answer. A cursor that is closed can't be used."""
        self._forget()
        self._closed = True

    def __enter__(self) -> "Cursor":
        return self

    def __exit__(self, *exception: object) -> None:
        self.close()
