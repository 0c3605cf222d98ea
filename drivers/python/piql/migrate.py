"""Growing a schema: what a script defines and the store lacks is defined, and what differs is refused."""

import contextlib
import os
import tempfile
from collections.abc import Mapping
from pathlib import Path
from typing import NamedTuple, TextIO

from .connection import Connection
from .counting import counted
from .engine import find_program
from .errors import Error, InterfaceError, OperationalError, ProgrammingError, refused
from .interrupted import what_stands
from .links import FileLink, Link, MemoryLink
from .plain import plain_path
from .refusals import refusal_of
from .reports import Report
from .rowcounts import CAP, count_rows
from .schema import Added, Counter, Definition, Schema, Table
from .scripts import first_token, pieces, place_at
from .statements import Sent, read_statement


class Wanted(NamedTuple):
    """A definition of a schema, and what its making reports of bounds and indexes."""

    definition: Definition
    report: Report

    @property
    def name(self) -> str:
        """Its name."""
        return self.definition.name

    def counted_tables(self) -> list[str]:
        """The tables over whose rows it is made."""
        counter = [self.definition.table] if isinstance(self.definition, Counter) else []
        return [*counter, *(line.table for line in self.report.indexes())]


class SchemaDiffers(ProgrammingError):
    """A definition of the store has the name of one of the schema, and another text."""


MOST_ROWS = CAP - 1
KINDS = {Table: "table", Added: "column", Counter: "counter"}


def told_lines(it: Wanted, rows: Mapping[str, int]) -> list[str]:
    """A definition's report for a reader. An index over a table that is there is told with the table's rows."""
    queries = [f"query {line.name} {line.way} bound {line.bound}" for line in it.report.queries()]
    names = queries or [f"{KINDS[type(it.definition)]} {it.name}"]
    lines = it.report.indexes()
    return [*names, *(f"index {at.table} ({', '.join(at.columns)}){over(at.table, rows)}" for at in lines)]


def over(table: str, rows: Mapping[str, int]) -> str:
    """How many rows an index goes over, if that is known."""
    return f" over {counted(rows[table], 'row')}" if table in rows else ""


def define_each(scratch: Connection, script: str, source: str) -> list[Report]:
    """Makes each definition of a script in an empty store; their reports. A refusal names its line."""
    data, reports = script.encode(), []
    for piece in pieces(data):
        text = data[piece.start : piece.end]
        try:
            statement = read_statement(text.decode())
            if not statement.kind.defines:
                raise ProgrammingError("a schema has CREATE TABLE, CREATE COUNTER, ALTER TABLE and PREPARE alone")
            reports.append(scratch.report(Sent(statement, "", ())))
        except Error as error:
            begins = piece.start + first_token(text)
            error.add_note(f"in {source}, line {place_at(data.decode(), len(data[:begins].decode())).line}")
            raise
    return reports


def scratch_link(folder: str, program: str | os.PathLike[str] | None) -> Link:
    """An empty store: one in memory, which waits for no disk, or a file where a program for files is given or alone."""
    if program is None:
        with contextlib.suppress(InterfaceError):
            return MemoryLink(None)
    return FileLink(os.path.join(folder, "schema.db"), find_program("piql_file", program), 5.0)


def read_wanted(path: str | os.PathLike[str], program: str | os.PathLike[str] | None = None) -> list[Wanted]:
    """The definitions of a schema in canonical text, from a store that is made for this alone."""
    with tempfile.TemporaryDirectory(prefix="piql-schema-") as folder:
        with Connection(scratch_link(folder, program)) as scratch:
            reports = define_each(scratch, read_script(path), os.fspath(path))
            definitions = scratch.refresh().definitions
    return list(map(Wanted, definitions, reports))


def read_script(path: str | os.PathLike[str]) -> str:
    """A schema's text."""
    try:
        return Path(plain_path(path, "the schema")).read_text(encoding="utf-8")
    except (OSError, UnicodeError) as error:
        raise OperationalError(f"{os.fspath(path)} can't be read: {error}") from error


def missing_of(there: Schema, wanted: list[Wanted]) -> list[Wanted]:
    """The definitions that the store lacks. Those that differ are refused together."""
    texts = {it.name: it.text for it in there.definitions}
    different = [it for it in (both.definition for both in wanted) if texts.get(it.name, it.text) != it.text]
    if different:
        lines = [f"  {it.name}\n    in the store:  {texts[it.name]}\n    in the schema: {it.text}" for it in different]
        way = "an ALTER TABLE in the schema adds a column; for all else `python -m piql rebuild OLD NEW SCHEMA`"
        raise SchemaDiffers("\n".join(["these definitions differ:", *lines, way]))
    return [it for it in wanted if it.name not in texts]


def rehearsed(there: Schema, missing: list[Wanted], program: str | os.PathLike[str] | None) -> list[Wanted]:
    """The missing definitions, made behind those that are there, in a store without rows. A refusal names the one."""
    with tempfile.TemporaryDirectory(prefix="piql-schema-") as folder:
        with Connection(scratch_link(folder, program)) as scratch:
            for definition in there.definitions:
                scratch.report(Sent(read_statement(definition.text), "", ()))
            return [it._replace(report=tried(scratch, it)) for it in missing]


def tried(scratch: Connection, it: Wanted) -> Report:
    """The report of a definition in a store that is made for this alone."""
    try:
        return scratch.report(Sent(read_statement(it.definition.text), "", ()))
    except Error as error:
        error.add_note(f"at {it.name}; nothing was made")
        raise


def check_rows(missing: list[Wanted], rows: Mapping[str, int]) -> None:
    """Refuses a counter over rows, and an index over too many, as the engine would."""
    for it in missing:
        for table in it.counted_tables():
            is_counter, count = isinstance(it.definition, Counter), rows.get(table, 0)
            if count > (0 if is_counter else MOST_ROWS):
                error = refused(refusal_of(("E209" if is_counter else "E207", table), it.definition.text))
                error.add_note(f"at {it.name}; nothing was made")
                raise error


def looked_at(
    connection: Connection, wanted: list[Wanted], program: str | os.PathLike[str] | None
) -> tuple[list[Wanted], dict[str, int]]:
    """What is missing, once it is known that all of it can be made; and the rows of the tables that it goes over."""
    there = connection.refresh()
    missing = missing_of(there, wanted)
    if not missing or not there.definitions:
        return missing, {}
    missing = rehearsed(there, missing, program)
    names = sorted({table for it in missing for table in it.counted_tables()} & set(there.tables()))
    rows = count_rows(connection, names) if names else {}
    check_rows(missing, rows)
    return missing, rows


def migrate(
    connection: Connection,
    path: str | os.PathLike[str],
    *,
    program: str | os.PathLike[str] | None = None,
    out: TextIO | None = None,
) -> list[str]:
    """Defines what the schema at the path has and the store lacks; the names.

    Before the first is made, what can't be is refused, and `out` gets the bounds with the rows that indexes go over.
    Where one is refused or interrupted, the exception's notes say what was made. The program is that of a store in
    which all is tried.
    """
    missing, rows = looked_at(connection, read_wanted(path, program), program)
    if out is not None:
        for line in [line for it in missing for line in told_lines(it, rows)]:
            print(line, file=out)
    for place, it in enumerate(missing):
        try:
            connection.execute(it.definition.text)
        except (Error, KeyboardInterrupt) as error:
            made = ", ".join(it.name for it in missing[:place]) or "nothing"
            error.add_note(f"in {os.fspath(path)}, at {it.name}; made before it: {made}")
            if isinstance(error, KeyboardInterrupt):
                kind = read_statement(it.definition.text).kind
                error.add_note(f"interrupted: {what_stands(connection, kind, it.definition.text)}")
            raise
    return [it.name for it in missing]
