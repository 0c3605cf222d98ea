"""piql-shell: a prompt over a file, a server, or a store in memory.

    piql-shell             a store in memory, which ends with the prompt
    piql-shell FILE        a file, or unix:SOCKET of a piql-serve

A statement ends with `;` and may go over several lines. Input from a pipe goes to the engine as it is, and its reports
come out as `run` writes them.
"""

import argparse
import contextlib
import os
import sys
from typing import NoReturn

from .connection import SHOW, Connection
from .cursor import SHOWN, Cursor
from .engine import find_program
from .errors import Error, batch_head
from .hosts.passwords import shown
from .hosts.urls import is_url
from .interrupted import what_stands
from .interrupts import HeldBack, held_back
from .links import MemoryLink
from .prompt import prompt
from .refusals import Refusal
from .reports import Work
from .schema import Added, Table
from .scripts import NAME, Place, pieces, place_at, tokens
from .server.figures import DEFINITIONS
from .statements import Kind, Sent, Statement, read_statement
from .tables import table
from .writes import write_of

HELP = """\
A statement ends with ; and may go over several lines. Ctrl-C leaves one that isn't whole. It ends one that is being
made, and then says what stands; over a store in memory, which would be lost with it, it waits for the statement's end.
A SELECT leaves nothing. One that wants an index, or further pages, is prepared first: .define NAME prepares the last
SELECT for good under a name, and makes its index. RUN NAME then answers it, page by page.
.tables     the tables         .queries    the prepared queries
.counters   the counters       .indexes    each table's key and indexes
.bounds     each query's bound
.next       the next page of the last answer
.define NAME   prepares the last SELECT
.help       this               .quit       the end, as Ctrl-D"""
NO_SELECT = "there is no SELECT yet; .define NAME prepares the last one"
HAS_PARAMETERS = "a SELECT has no parameter: write the value in its place, or .define NAME and RUN NAME with its values"
NONE = "there are none"
NO_NAME = ".define wants a name: letters, digits and _, the first no digit"
FURTHER = "; .next has more"
MAY_BE_FURTHER = "; a page of a SELECT that isn't prepared, .define NAME makes the further ones"


def numbers(bound: Work | None, used: Work | None) -> str:
    """The bound and what was used, in words."""
    if bound is None or used is None:
        return ""
    return f"at most {amount(bound)}; used {used.operations}, {used.entries}"


def amount(work: Work) -> str:
    """Operations and entries, in words."""
    operations = f"{work.operations} operation{'' if work.operations == 1 else 's'}"
    return f"{operations}, {work.entries} entr{'y' if work.entries == 1 else 'ies'}"


def underlined(statement: str, place: Place) -> str:
    """The line of a statement with a mark under the place."""
    line = statement.split("\n")[place.line - 1]
    indent = "".join("\t" if letter == "\t" else " " for letter in line[: place.column - 1])
    return f"  {line}\n  {indent}^"


def plain(text: str) -> str:
    """A text without the marks of the document that it is from."""
    return text.replace("`", "")


def marked(refusal: Refusal) -> Place | None:
    """Where a statement spells nothing, or where the write of a batch begins that is refused."""
    if refusal.place is not None or refusal.number_in_batch is None:
        return refusal.place
    write = write_of(tokens(refusal.statement), refusal.number_in_batch)
    return place_at(refusal.statement, write[0].start) if write else None


def told(error: Error) -> str:
    """An error for a reader: what was refused, where, why, and the way out."""
    refusal = error.refusal
    if refusal is None:
        return str(error)
    head = " ".join([*batch_head(refusal), refusal.number, *refusal.fields.values()])
    lines = [plain(f"{head}: {refusal.headline} {refusal.detail}").rstrip()]
    place = marked(refusal)
    if place is not None:
        lines.append(underlined(refusal.statement, place))
    if refusal.way_out:
        lines.append(plain(f"way out: {refusal.way_out}"))
    return "\n".join(lines)


def further(cursor: Cursor) -> str:
    """What is said of further pages behind the number of rows."""
    if cursor.wants_prepare:
        return MAY_BE_FURTHER
    return FURTHER if cursor.next_page else ""


def answer(cursor: Cursor) -> str:
    """What a statement was answered: its rows, if it has any, and its numbers."""
    lines = []
    if cursor.description is not None:
        rows = cursor.fetchall()
        if cursor.description is SHOWN:
            # A definition is read whole or not at all.
            lines += [f"{number:3} {text}" for number, text in rows]
        elif rows:
            lines.append(table([it.name for it in cursor.description], rows))
        lines += [f"{len(rows)} row{'' if len(rows) == 1 else 's'}" + further(cursor)]
    else:
        lines.append("ok" if cursor.rowcount else "no row has this key")
    return "\n".join([*lines, numbers(cursor.bound, cursor.used)])


class Shell:
    """A prompt's state: its connection, the last SELECT, and the statement whose next page may be asked for."""

    def __init__(self, connection: Connection) -> None:
        self.connection = connection
        self.selected: Statement | None = None
        self.paged: tuple[str, str] | None = None

    def tell_statement(self, text: str) -> bool:
        """Prints what a statement is answered; whether it came to its end without an interrupt."""
        held = HeldBack()
        try:
            with self.whole() as held:
                print(self.execute(text))
        except KeyboardInterrupt:
            self.tell_interrupt(text)
            return False
        return not held.is_interrupted

    def whole(self) -> contextlib.AbstractContextManager[HeldBack]:
        """What an interrupt waits for: over a store in memory a statement's end, since its rows would be lost."""
        return held_back() if isinstance(self.connection.link(), MemoryLink) else contextlib.nullcontext(HeldBack())

    def tell_interrupt(self, text: str) -> None:
        """Prints what stands of a statement that was interrupted."""
        try:
            kind = read_statement(text).kind
        except Error:
            # Nothing of it was sent.
            kind = Kind.SHOW
        print(f"\ninterrupted: {what_stands(self.connection, kind, text)}")

    def execute(self, text: str, after: str | None = None) -> str:
        """What a statement is answered."""
        try:
            statement = read_statement(text)
            if statement.kind is Kind.SELECT:
                self.selected = statement
                if statement.params:
                    return HAS_PARAMETERS
            cursor = self.connection.execute(text, after=after)
        except Error as error:
            return told(error)
        if statement.kind.has_pages:
            following = None if cursor.wants_prepare else cursor.next_page
            self.paged = (text, following) if following else None
        return answer(cursor)

    def define(self, name: str) -> str:
        """Prepares the last SELECT under a name; its bound, its index, and how many definitions are left."""
        if NAME.fullmatch(name) is None:
            return NO_NAME
        if self.selected is None:
            return NO_SELECT
        prepare = self.selected._replace(kind=Kind.PREPARE)
        report = self.connection.report(Sent(prepare, f"PREPARE {name} AS ", prepare.numbered()))
        lines = [f"query {it.name}: at most {amount(it.bound)}" for it in report.queries()]
        lines += [f"index {it.number} of {it.table}: {', '.join(it.columns)}" for it in report.indexes()]
        left = DEFINITIONS - len(self.connection.refresh().definitions)
        return "\n".join([*lines, f"{left} of {DEFINITIONS} definitions are left"])

    def next_page(self) -> str:
        """The next page of the last answer."""
        if self.paged is None:
            return "the last answer has no further page"
        return self.execute(*self.paged)

    def command(self, word: str) -> str:
        """What a word with a point is answered."""
        if word == ".next":
            return self.next_page()
        if word.split()[0] == ".define":
            return self.define(word.removeprefix(".define").strip().rstrip(";"))
        if word == ".tables":
            definitions = self.connection.refresh().definitions
            return "\n".join(it.text for it in definitions if isinstance(it, (Table, Added))) or NONE
        if word == ".counters":
            return "\n".join(it.text for it in self.connection.refresh().counters().values()) or NONE
        if word == ".queries":
            return "\n".join(it.text for it in self.connection.refresh().queries().values()) or NONE
        if word == ".indexes":
            return self.indexes()
        if word == ".bounds":
            rows = [(name, *bound) for name, bound in self.connection.bounds().items()]
            return table(["query", "operations", "entries"], rows)
        return HELP if word == ".help" else f"there is no {word}\n{HELP}"

    def indexes(self) -> str:
        """The keys of the tables, and their indexes with their numbers."""
        keys = [(name, "key", ", ".join(it.key)) for name, it in self.connection.refresh().tables().items()]
        report = self.connection.report(Sent(SHOW, "", ()))
        made = [(it.table, f"index {it.number}", ", ".join(it.columns)) for it in report.indexes()]
        return table(["table", "", "columns"], sorted(keys + made, key=lambda row: row[0]))

    def tell_command(self, word: str) -> None:
        """Prints what a word with a point is answered."""
        try:
            with self.whole():
                print(self.command(word))
        except Error as error:
            print(told(error))
        except KeyboardInterrupt:
            name = word.removeprefix(".define")
            self.tell_interrupt("SHOW" if name == word else f"PREPARE {name} AS SELECT")

    def line(self, before: str, line: str) -> str:
        """Takes a line behind those that are no whole statement yet; prints answers; what is left."""
        word = line.strip()
        if not before and (word.startswith(".") or word.rstrip(";").lower() == "help"):
            self.tell_command(word if word.startswith(".") else ".help")
            return ""
        text = before + line + "\n"
        try:
            data = text.encode()
        except UnicodeEncodeError:
            print("this line isn't UTF-8, and is left out")
            return before
        rest = ""
        for piece in pieces(data):
            part = data[piece.start : piece.end].decode().strip()
            if not piece.is_whole:
                rest = part + "\n"
            elif not self.tell_statement(part):
                return ""
        return rest


def hand_over(file: str | None) -> NoReturn:
    """Gives standard input to the engine as it is."""
    program = find_program("piql" if file is None else "piql_file")
    os.execv(program, [program, *([] if file is None else [file]), "run"])


def through_server(file: str) -> int:
    """Sends the statements of standard input to a server, and prints their reports."""
    from . import connect

    with connect(file) as connection:
        data = sys.stdin.buffer.read()
        for piece in pieces(data):
            if piece.is_whole:
                sys.stdout.write(connection.link().exchange(data[piece.start : piece.end], False))
    return 0


def main(words: list[str] | None = None) -> int:
    """The command."""
    from . import connect

    parser = argparse.ArgumentParser(prog="piql-shell", description="A prompt over a store.")
    parser.add_argument("file", nargs="?", help="a file, or unix:SOCKET; without it a store in memory")
    file = parser.parse_args(words).file
    try:
        if not sys.stdin.isatty():
            if file is not None and file.startswith("unix:"):
                return through_server(file)
            hand_over(file)
        with connect(file or ":memory:") as connection:
            name = "a store in memory" if file is None else shown(file) if is_url(file) else file
            print(f"{name}; .help tells the commands")
            prompt(Shell(connection))
        return 0
    except (Error, OSError) as error:
        print(f"piql-shell: {error}", file=sys.stderr)
        return 1


if __name__ == "__main__":
    sys.exit(main())
