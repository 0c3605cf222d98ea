"""What goes to an engine and comes back is whole: one statement goes, and the one report that is its answer comes.

What isn't so would leave the reports behind the statements, and each later one would be told as another's.
"""

import itertools
import re
from collections.abc import Callable, Sequence

from .errors import InternalError, ProgrammingError
from .scripts import is_one_piece

# Behind the repetition of a group. With some Pythons, 3.11.2 among them, a possessive one takes for one of the group a
# part that failed behind its first letters. There it may give back, which finds the same: what follows is no beginning
# of the group.
KEPT = b"" if re.fullmatch(rb"(?:'[^']*+')*+;", b"';") else b"+"
# The rest of a line up to its line feed: its quotes are closed. Each repetition here is possessive, so that a long text
# is read once.
REST = rb"[^'\n]*+(?:'[^']*+'[^'\n]*+)*" + KEPT + rb"\n"
VALUE = rb"(?:'[^']*+(?:''[^']*+)*+'|-?[0-9]{1,19}+|true|false|NULL)"
ROWS = rb"(?:row " + VALUE + rb"(?:, " + VALUE + rb")*" + KEPT + rb"\n)+" + KEPT
OTHERS = rb"(?:(?:query|index|def) " + REST + rb")+" + KEPT
NEXT = rb"(?: next [A-Za-z0-9_-]++)?" + KEPT
END_LINE = (
    rb"([1-9][0-9]{0,18}+) (?:ok(?: rows [0-9]++" + NEXT + rb")?" + KEPT + rb"|refused E[0-9]{3}[^'\n]*?)"
    rb" bound [0-9]++ [0-9]++ used [0-9]++ [0-9]++\n"
)
REPORT = re.compile(rb"(?:" + ROWS + rb"|" + OTHERS + rb")?" + KEPT + END_LINE)
END = re.compile(END_LINE)
LINES = re.compile(rb"(?:(?:row|query|index|def) " + REST + rb")*" + KEPT)
# A whole line that begins none of a report and isn't the one by which a run tells of a damage and ends.
STRANGE = re.compile(rb"(?!damaged )" + REST)
NOT_ONE = "what is sent has to be one whole statement, and nothing was sent"
UNMATCHED = (
    "what the engine wrote isn't the report of this statement, so the run was ended. A statement that only reads"
    " changed nothing, a write was made whole or not at all, and nothing of the answer is told"
)


def check_statement(statement: bytes) -> None:
    """Refuses bytes that an engine would answer by no report, or by more than one."""
    if not is_one_piece(statement):
        raise ProgrammingError(NOT_ONE)


def number_of(report: bytes) -> int | None:
    """The number of the one whole report that the bytes are, or None if they are none."""
    found = REPORT.fullmatch(report)
    if found is None or not is_utf8(report):
        return None
    return int(found[1])


def is_utf8(text: bytes) -> bool:
    """Whether the bytes are a text."""
    if text.isascii():
        return True
    try:
        text.decode()
    except UnicodeDecodeError:
        return False
    return True


def check_report(report: bytes, number: int) -> None:
    """Refuses what isn't exactly the report of the statement with this number in its run."""
    if number_of(report) != number:
        raise InternalError(UNMATCHED)


class Growing:
    """A report that comes in parts. Only its last line, which may be cut, is read again with each part."""

    def __init__(self, first: bytes) -> None:
        self.text = bytearray(first)
        self.at = 0

    def is_whole(self) -> bool:
        """Whether the report's end line is there. One with bytes behind it, or a line of none, is refused."""
        lines = LINES.match(self.text, self.at)
        self.at = lines.end() if lines else self.at
        end = END.match(self.text, self.at)
        if end is not None and end.end() == len(self.text):
            return True
        if end is not None or STRANGE.match(self.text, self.at):
            raise InternalError(UNMATCHED)
        return False


class Reports:
    """The reports of several statements, which come one behind the other and in parts; each is told once it is whole.

    `number` is that of the last statement before them. None comes before its statement was sent whole: `sent` is how
    many bytes of them all were.
    """

    def __init__(self, number: int, statements: Sequence[bytes], tell: Callable[[bytes], None]) -> None:
        self.number, self.tell = number, tell
        self.ends = list(itertools.accumulate(map(len, statements)))
        self.told = self.sent = self.at = 0
        # What has come of the next one.
        self.text = bytearray()

    def is_whole(self) -> bool:
        """Whether each has been told."""
        return self.told == len(self.ends)

    def take(self, part: bytes) -> None:
        """Takes what has come, and tells the reports that are whole. What is none is refused, once it shows."""
        self.text += part
        while self.text:
            lines = LINES.match(self.text, self.at)
            self.at = lines.end() if lines else self.at
            end = END.match(self.text, self.at)
            if end is None:
                if STRANGE.match(self.text, self.at):
                    raise InternalError(UNMATCHED)
                return
            self.take_one(bytes(self.text[: end.end()]))

    def take_one(self, report: bytes) -> None:
        """Tells the next one. A report of no statement, or with bytes behind the last one, is refused."""
        is_asked = not self.is_whole() and self.sent >= self.ends[self.told]
        has_place = len(self.text) == len(report) or self.told + 1 < len(self.ends)
        if not (is_asked and has_place):
            raise InternalError(UNMATCHED)
        check_report(report, self.number + 1)
        del self.text[: len(report)]
        self.at, self.number, self.told = 0, self.number + 1, self.told + 1
        self.tell(report)
