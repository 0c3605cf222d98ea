"""Reading reports: the lines that the engine writes, as docs/FORMATS.md has them."""

import re
from collections.abc import Iterator
from typing import NamedTuple

Value = int | bool | str | None
Row = tuple[Value, ...]


class Work(NamedTuple):
    """What a statement may use at most, or what it used: calls of the store, and pairs that these answer or count."""

    operations: int
    entries: int

    def __str__(self) -> str:
        return f"{self.operations} {self.entries}"


class OpeningLine(NamedTuple):
    """The first line of a run: how many definitions the store has."""

    definitions: int
    bound: Work
    used: Work


class QueryLine(NamedTuple):
    """The bound of a query and the way to it, `whole` or `stop P`."""

    name: str
    way: str
    bound: Work


class IndexLine(NamedTuple):
    """An index, with ` DESC` behind a column that falls."""

    table: str
    number: int
    columns: tuple[str, ...]


class DefinitionLine(NamedTuple):
    """A definition's number and its canonical text."""

    number: int
    text: str


class EndLine(NamedTuple):
    """The last line of a report. `refusal` is the code and its fields, and empty where the statement was made."""

    number: int
    refusal: tuple[str, ...]
    rows: int | None
    cursor: str | None
    bound: Work
    used: Work


class DamageLine(NamedTuple):
    """The key, in hexadecimal, of a pair that no run writes."""

    key: str


Line = OpeningLine | QueryLine | IndexLine | DefinitionLine | EndLine | DamageLine


class Report:
    """A report: its rows, or its other lines, and its end line. No report has rows and other lines.

    `is_selected` says that it answers a SELECT that isn't prepared.
    """

    __slots__ = ("rows", "lines", "ending", "is_selected", "_end")

    def __init__(self, rows: list[Row], lines: list[Line], ending: str) -> None:
        self.rows, self.lines, self.ending = rows, lines, ending
        self.is_selected = False
        self._end: EndLine | None = None

    @property
    def end(self) -> EndLine:
        """The end line. It is read when it is asked for: most callers want the rows alone."""
        if self._end is None:
            self._end = read_end(self.ending)
        if self._end is None:
            raise ValueError("no report ends so")
        return self._end

    def is_refused(self) -> bool:
        """Whether the statement was refused. No other end line has the word."""
        return " refused " in self.ending

    def queries(self) -> list[QueryLine]:
        """The query lines."""
        return [line for line in self.lines if isinstance(line, QueryLine)]

    def indexes(self) -> list[IndexLine]:
        """The index lines."""
        return [line for line in self.lines if isinstance(line, IndexLine)]

    def definitions(self) -> list[DefinitionLine]:
        """The definition lines."""
        return [line for line in self.lines if isinstance(line, DefinitionLine)]


# Possessive: nothing is given back, and a text is passed over in one step for each of its quotes.
VALUE = re.compile(r"'[^']*+(?:''[^']*+)*+'|[^', ]++")
WORDS: dict[str, Value] = {"true": True, "false": False, "NULL": None}
NUMBERS = r"bound (\d+) (\d+) used (\d+) (\d+)"
OPENING = re.compile(r"open defs (\d+) " + NUMBERS)
END = re.compile(r"(\d+) (?:ok(?: rows (\d+)(?: next ([A-Za-z0-9_-]+))?)?|refused (E\d\d\d[^'\n]*?)) " + NUMBERS)
QUERY = re.compile(r"query (\w+) (whole|stop \d+) bound (\d+) (\d+)")
INDEX = re.compile(r"index (\w+) (\d+) \(([^)]*)\)")
DEFINITION = re.compile(r"def (\d+) (.*)", re.DOTALL)
DAMAGE = re.compile(r"damaged ([0-9a-f]*)")


def read_values(text: str) -> Row:
    """The values of a row as a report prints them, behind the word `row`."""
    if "," not in text:
        return (read_value(text),)
    return tuple(map(read_value, VALUE.findall(text)))


def read_value(text: str) -> Value:
    """A value as a report prints it."""
    if text[0] == "'":
        return text[1:-1].replace("''", "'")
    return WORDS[text] if text in WORDS else int(text)


def work(operations: str, entries: str) -> Work:
    """The two numbers of a bound, or of what was used."""
    return Work(int(operations), int(entries))


def read_end(line: str) -> EndLine | None:
    """The end line of a report, if the line is one."""
    found = END.fullmatch(line)
    if found is None:
        return None
    number, rows, cursor, refusal, *numbers = found.groups()
    fields = tuple(refusal.split(" ")) if refusal else ()
    return EndLine(int(number), fields, int(rows) if rows else None, cursor, work(*numbers[:2]), work(*numbers[2:]))


def read_line(line: str) -> Line | None:
    """Any line of a report but a row, without its line feed; None for a text that is none."""
    if found := DEFINITION.fullmatch(line):
        return DefinitionLine(int(found[1]), found[2])
    if found := QUERY.fullmatch(line):
        return QueryLine(found[1], found[2], work(found[3], found[4]))
    if found := INDEX.fullmatch(line):
        return IndexLine(found[1], int(found[2]), tuple(found[3].split(", ")))
    if found := OPENING.fullmatch(line):
        return OpeningLine(int(found[1]), work(found[2], found[3]), work(found[4], found[5]))
    if found := DAMAGE.fullmatch(line):
        return DamageLine(found[1])
    return read_end(line)


def cut_lines(text: str) -> Iterator[str]:
    """The lines of a text of reports. A line feed between quotes ends none, since a text in a row may have it."""
    line = ""
    for part in text.split("\n"):
        line = f"{line}\n{part}" if line else part
        if line.count("'") % 2 == 0:
            if line:
                yield line
            line = ""
    if line:
        yield line


def read_reports(text: str) -> Iterator[Report | OpeningLine | DamageLine]:
    """What a run wrote: the opening line, each report whole, and the line of a damage, in order."""
    rows: list[Row] = []
    lines: list[Line] = []
    for text_line in cut_lines(text):
        line = None if text_line.startswith("row ") else read_line(text_line)
        if isinstance(line, EndLine):
            yield Report(rows, lines, text_line)
            rows, lines = [], []
        elif isinstance(line, (OpeningLine, DamageLine)):
            yield line
        elif line is not None:
            lines.append(line)
        elif text_line.startswith("row "):
            rows.append(read_values(text_line[4:]))


def read_rows(text: str, ending: str) -> list[Row]:
    """The rows of an answer, from their lines and its end line, `N ok rows R ..`."""
    feeds, count = text.count("\n"), int(ending.split(" ", 4)[3])
    if feeds == count == 1:
        return [read_values(text[4:-1])]
    lines = text[:-1].split("\n")
    # With as many line feeds as rows, none is in a text, unless the end line says another number.
    if feeds != count or any(line.count("'") % 2 for line in lines):
        lines = list(cut_lines(text))
    rows = [read_values(line[4:]) for line in lines]
    if len(rows) != count:
        raise ValueError("there are more rows, or fewer, than the end line says")
    return rows


def read_report(text: str) -> Report:
    """The one report that the text is. A text that is none is a ValueError."""
    start = text.rfind("\n", 0, -1) + 1
    ending = text[start:-1]
    if " ok rows " in ending and text.startswith("row "):
        return Report(read_rows(text[:start], ending), [], ending)
    end = read_end(ending)
    if end is None or end.rows:
        raise ValueError("no report ends so")
    return Report([], [line for line in map(read_line, cut_lines(text[:start])) if line is not None], ending)
