"""Telling what a script did: each refusal at its place, with the cause and the way out, and each answer as a table."""

import argparse
import contextlib
import os
import re
import sys
import textwrap
from typing import NamedTuple

from piql.counting import counted
from piql.details import detail_of
from piql.errors import Error
from piql.refusals import Refusal, refusal_of, with_causes
from piql.reports import DamageLine, DefinitionLine, IndexLine, OpeningLine, QueryLine, Report, read_reports
from piql.schema import Schema
from piql.scripts import Piece, Token, character_at, pieces, place_at, tokens
from piql.stored import opened, read_stored_schema
from piql.tables import table
from piql.writes import IN_BATCH, write_of
from tools.kept import NotBuilt
from tools.launch import tell, written, written_of
from tools.pointing import pointed
from tools.shapes import Shapes
from tools.statuses import NO_PROGRAM, REFUSED
from tools.words import Wrong, read_words

NAME = "tell"
# A longer line is shown around its caret.
WIDTH = 100
# The cause of these is told by the way out for the case at hand.
BY_CASES = ("E104", "E206")
UNBOUNDED = "E304"
# What a document writes around a link and a code.
LINK = re.compile(r"\[([^\]]*)\]\([^)]*\)")


class Script(NamedTuple):
    """A script with its pieces by their numbers."""

    name: str
    data: bytes
    pieces: dict[int, Piece]

    def piece(self, number: int) -> bytes:
        """The bytes of a piece, with what stands before its first token."""
        piece = self.pieces[number]
        return self.data[piece.start : piece.end]


def read_script(name: str) -> Script:
    with open(name, "rb") as file:
        data = file.read()
    return Script(name, data, {piece.number: piece for piece in pieces(data)})


def bad_byte(piece: bytes) -> int:
    """The first byte that is no UTF-8."""
    try:
        piece.decode()
    except UnicodeDecodeError as error:
        return error.start
    return 0


def own_refusal(fields: tuple[str, ...], found: list[Token], text: str) -> tuple[tuple[str, ...], str]:
    """A refusal and the text that it is of: of a batch those of the write that is refused."""
    if fields[0] != IN_BATCH:
        return fields, text
    write = write_of(found, int(fields[1]))
    return fields[2:], text[write[0].start : write[-1].start] if write else text


def place_in(piece: bytes, fields: tuple[str, ...], found: list[Token], shapes: Shapes) -> int:
    """The byte of a piece at which the cause of a refusal stands. The first token's where nothing tells more."""
    code, values = fields[0], fields[1:]
    text = piece.decode(errors="replace")
    if code == "E104":
        return min(int(values[0]), len(piece) - 1)
    if code == "E101":
        return bad_byte(piece)
    if code == "E102":
        token, is_open = found[-1], found[-1].kind == "other"
        return len(text[: token.start if is_open else token.end].encode())
    own, _ = own_refusal(fields, found, text)
    columns = shapes.columns_of(own[1]) if own[0] == "E501" else []
    token = pointed(code, values, found, columns) or found[0]
    return len(text[: token.start].encode())


def show_line(script: Script, at: int) -> list[str]:
    """The line of a byte, and a caret under it."""
    low = script.data.rfind(b"\n", 0, at) + 1
    high = script.data.find(b"\n", at)
    line = script.data[low : high if high >= 0 else len(script.data)].decode(errors="replace").expandtabs(1)
    number = script.data.count(b"\n", 0, low) + 1
    column = len(script.data[low:at].decode(errors="replace"))
    begin = max(0, column - WIDTH // 2) if len(line) > WIDTH else 0
    line = "".join(it if it.isprintable() else "\N{REPLACEMENT CHARACTER}" for it in line[begin : begin + WIDTH])
    return [f"{number:>6} | {line}".rstrip(), " " * 6 + " | " + " " * (column - begin) + "^"]


def wrapped(text: str, head: str = "") -> list[str]:
    """The lines of a sentence, without the marks of the document that it is from."""
    plain = LINK.sub(r"\1", text).replace("`", "")
    return textwrap.wrap(head + plain, WIDTH, initial_indent="  ", subsequent_indent="    ") if text else []


def refused(fields: tuple[str, ...], text: str, at: int | None, shapes: Shapes) -> Refusal:
    """A refusal of a text, with what the tables tell of it; `at` is where its tokens spell nothing."""
    if at is not None:
        return refusal_of(fields, text, place_at(text, at))
    detail = detail_of(fields, text, Schema(tuple(shapes.tables.values())))
    return with_causes(refusal_of(fields, text)._replace(**detail._asdict()))


def cause_of(refusal: Refusal) -> str:
    """Why it is refused. What the tables tell of a query without a bound stands for what is so of each of them."""
    is_short = refusal.number in BY_CASES or refusal.number == UNBOUNDED and refusal.detail
    return f"{refusal.headline if is_short else refusal.cause} {refusal.detail}".rstrip()


def tell_refusal(script: Script, report: Report, shapes: Shapes) -> None:
    """A refusal with its place, its cause and the way out."""
    number, fields = report.end.number, report.end.refusal
    piece = script.piece(number)
    text = piece.decode(errors="replace")
    found = tokens(text)
    within = place_in(piece, fields, found, shapes)
    at = script.pieces[number].start + within
    line = script.data.count(b"\n", 0, at) + 1
    own, part = own_refusal(fields, found, text)
    refusal = refused(own, part, character_at(piece, within) if own[0] == "E104" else None, shapes)
    print(f"{script.name}:{line}: statement {number} is refused: {' '.join(fields)}")
    print(*show_line(script, at), sep="\n")
    head = f"write {fields[1]} of the batch: " if fields[0] == IN_BATCH else ""
    print(*wrapped(cause_of(refusal), head), *wrapped(refusal.way_out, "way out: "), "", sep="\n")


def names_of(report: Report, known: list[str]) -> list[str]:
    """The names of an answer's columns, or their numbers where they aren't known."""
    count = len(report.rows[0])
    return known if len(known) == count else [str(number) for number in range(1, count + 1)]


def tell_answer(script: Script, report: Report, shapes: Shapes) -> None:
    """The rows of an answer under their names."""
    end = report.end
    text = script.piece(end.number).decode(errors="replace")
    found = tokens(text)
    line = script.data.count(b"\n", 0, script.pieces[end.number].start + len(text[: found[0].start].encode())) + 1
    print(f"{script.name}:{line}: {' '.join(text[found[0].start :].split())[:WIDTH]}")
    if report.rows:
        print(textwrap.indent(table(names_of(report, shapes.answered_by(found)), report.rows), "  "))
    pages = f", the next page is behind '{end.cursor}'" if end.cursor else ""
    print(f"  {counted(end.rows or 0, 'row')}{pages}; bound {end.bound}, used {end.used}\n")


def tell_lines(report: Report) -> None:
    """What a definition, an EXPLAIN or a SHOW tells."""
    for line in report.lines:
        if isinstance(line, QueryLine):
            print(f"  query {line.name}: bound {line.bound} ({line.way})")
        elif isinstance(line, IndexLine):
            print(f"  index {line.number} of {line.table}: {', '.join(line.columns)}")
        elif isinstance(line, DefinitionLine):
            print(f"  {line.number}: {line.text}")


def tell_all(script: Script, written: str, shapes: Shapes) -> int:
    """Tells what a run wrote; how many statements were refused."""
    refused = count = 0
    for report in read_reports(written):
        if isinstance(report, DamageLine):
            print(f"  the store is damaged at the key {report.key}")
        if isinstance(report, (DamageLine, OpeningLine)):
            continue
        count += 1
        if report.end.refusal:
            refused += 1
            tell_refusal(script, report, shapes)
            continue
        shapes.add(script.piece(report.end.number).decode(errors="replace"), report.definitions())
        if report.end.rows is not None:
            tell_answer(script, report, shapes)
        tell_lines(report)
    print(f"{counted(count, 'statement')}, {refused} refused")
    return refused


def shapes_of(path: str | None) -> Shapes:
    """What a file has before the script is run, as far as it can be read."""
    shapes = Shapes()
    if path and os.path.exists(path):
        with contextlib.suppress(Error), opened(path) as file:
            for it in read_stored_schema(file).definitions:
                shapes.add(it.text, [])
    return shapes


def run_script(given: argparse.Namespace) -> tuple[str, int]:
    """What a run of the script writes, and its status."""
    name = "piql_file" if given.file else "piql"
    words = [*([given.file] if given.file else []), "check" if given.check else "run", given.script]
    return written(name, read_words(name, words).words, given.script)


def read_given(words: list[str]) -> argparse.Namespace:
    parser = argparse.ArgumentParser(prog="bin/tell", description=__doc__)
    parser.add_argument("--check", action="store_true", help="check the script without a store")
    parser.add_argument("--file", metavar="PATH", help="run it over this file, and not over a new store in memory")
    parser.add_argument("--report", metavar="REPORT", help="run nothing: this is what a run of the script wrote")
    parser.add_argument("script", metavar="SCRIPT", help="the script")
    return parser.parse_args(words)


def main(words: list[str]) -> int:
    given = read_given(words)
    shapes = shapes_of(given.file)
    try:
        text, status = written_of(given.script, given.report, lambda: run_script(given))
    except (Wrong, NotBuilt, OSError) as error:
        tell(NAME, str(error))
        return error.status if isinstance(error, Wrong) else NO_PROGRAM
    refused = tell_all(read_script(given.script), text, shapes)
    return status if status else REFUSED if refused else 0
