"""A statement as its writer gives it: what kind it is, the places of its values, and how it is sent."""

import hashlib
from collections.abc import Sequence
from enum import Enum
from functools import lru_cache
from itertools import chain
from typing import NamedTuple

from .errors import DatabaseError, DataError, ProgrammingError, refused
from .plain import plain_text
from .refusals import refusal_of
from .scripts import KEYWORDS, STATEMENT_BYTES, Token, character_at, place_at, plain_number, tokens
from .writes import WORDS, begins_of

# What a batch has before its writes, and between two of them.
BATCH_HEAD, BETWEEN = "BATCH ", ", "


class Kind(Enum):
    """What a statement does, by its first word.

    What is asked of each statement that is sent is an attribute: to compare members takes longer.
    """

    SELECT = "SELECT"
    RUN = "RUN"
    READ = "READ"
    INSERT = "INSERT"
    UPDATE = "UPDATE"
    DELETE = "DELETE"
    BATCH = "BATCH"
    CREATE = "CREATE"
    ALTER = "ALTER"
    PREPARE = "PREPARE"
    EXPLAIN = "EXPLAIN"
    SHOW = "SHOW"
    OTHER = "OTHER"

    def __init__(self, word: str) -> None:
        self.reads = word in ("SELECT", "RUN", "READ", "EXPLAIN", "SHOW")
        self.defines = word in ("CREATE", "ALTER", "PREPARE")
        self.is_write = word in WORDS
        self.writes = self.is_write or word == "BATCH"
        # Its answer is rows, and those of a query come page by page.
        self.has_rows = word in ("SELECT", "RUN", "READ")
        self.has_pages = word in ("SELECT", "RUN")
        self.is_prepared, self.is_run = word == "SELECT", word == "RUN"
        # A `?` in it is a numbered parameter, and takes no value.
        self.is_numbered = word in ("SELECT", "PREPARE", "EXPLAIN")


class Statement(NamedTuple):
    """A statement: its kind, the query that it runs or defines, its text cut at each `?`, and how many values it takes.

    `template` is the parts with `%s` between them, `widths` how many letters stand there in the text. `pages` says that
    it has PAGINATE, and `rows` is how many rows it writes where it is made.
    """

    text: str
    kind: Kind
    name: str
    parts: tuple[str, ...]
    params: int
    template: str
    widths: tuple[int, ...]
    pages: bool
    rows: int

    def source(self) -> str:
        """The text up to its end."""
        return self.text[: len("".join(self.parts)) + sum(self.widths)]

    def with_one_place(self) -> "Statement":
        """The statement with one place for its values, and what stands between them in the text."""
        first, *between, last = self.parts
        width = len("".join(between)) + sum(self.widths)
        parts = (first, last)
        return self._replace(parts=parts, params=1, template=template_of(parts), widths=(width,))

    def numbered(self) -> tuple[str, ...]:
        """What stands for each `?` in the text of a query."""
        return tuple(f"[{i}]" for i in range(1, len(self.parts)))


class Sent(NamedTuple):
    """A statement as the engine gets it: a text before its own, what stands for each `?`, and a text behind."""

    statement: Statement
    before: str
    fillings: tuple[str, ...]
    behind: str = ""

    def text(self) -> str:
        """The statement with its end."""
        return f"{self.before}{self.statement.template % self.fillings}{self.behind};"

    def data(self) -> bytes:
        """The bytes of the statement."""
        try:
            data = self.text().encode()
        except UnicodeEncodeError as error:
            raise DataError("a statement with half a surrogate pair is no UTF-8") from error
        if len(data) > STATEMENT_BYTES:
            raise misplaced("E103", self.statement.text)
        return data

    def run_as(self, name: str) -> "Sent":
        """The RUN of a SELECT that is prepared under this name, with the same values."""
        return self._replace(statement=run_of(self.statement, name))

    def source_at(self, at: int) -> int:
        """The character of the writer's text that a byte of the statement stands for."""
        sent = character_at(self.text().encode(), at) - len(self.before)
        source = 0
        fillings, widths = (*self.fillings, self.behind + ";"), (*self.statement.widths, 0)
        for part, filling, width in zip(self.statement.parts, fillings, widths):
            if sent < len(part):
                return max(source + sent, 0)
            if sent < len(part) + len(filling):
                return source + len(part)
            source, sent = source + len(part) + width, sent - len(part) - len(filling)
        return len(self.statement.text)


def misplaced(number: str, text: str, at: int | None = None) -> DatabaseError:
    """A refusal that the driver tells before anything is sent, under the engine's own number."""
    return refused(refusal_of((number,), text, None if at is None else place_at(text, at)))


def check_utf8(text: str) -> None:
    """Refuses a text that has no bytes."""
    try:
        text.encode()
    except UnicodeEncodeError as error:
        raise misplaced("E101", text) from error


def whole_tokens(text: str) -> list[Token]:
    """The tokens of exactly one statement, without its `;`."""
    found = tokens(text)
    if found and found[-1].is_mark(";"):
        found.pop()
    if not found:
        raise ProgrammingError("there is no statement in this text")
    if found[-1].kind == "other" and found[-1].text.startswith("'"):
        raise misplaced("E102", text, found[-1].start)
    for token in found:
        if token.is_mark(";"):
            raise ProgrammingError("a cursor executes one statement at a time; executescript takes several")
    return found


def check_places(found: list[Token]) -> None:
    """Refuses a `?` that isn't by itself: with its value it could spell another token, as `-?` with -1 a comment."""
    for token, behind in zip(found, found[1:]):
        if "?" in (token.text, behind.text) and token.end == behind.start and "mark" not in (token.kind, behind.kind):
            raise ProgrammingError("a ? stands by itself, with blanks or marks beside it: it is the place of a value")


def normal(token: Token) -> str:
    """A token as any spelling of it has it."""
    if token.kind == "word":
        return token.text.upper() if token.text.upper() in KEYWORDS else token.text.lower()
    return plain_number(token.text) if token.kind == "number" else token.text


def unlabelled(found: list[str]) -> list[str]:
    """Normal tokens without the names of parameters, which are for readers alone."""
    kept: list[str] = []
    for i, text in enumerate(found):
        is_label = text == ":" or (i > 0 and found[i - 1] == ":")
        kept += [] if is_label else [text]
    return kept


def query_name(texts: list[str]) -> str:
    """The name under which a SELECT of these normal tokens is prepared: the same in every process."""
    return "q_" + hashlib.sha256(" ".join(unlabelled(texts)).encode()).hexdigest()[:30]


def numbered_tokens(found: list[Token]) -> list[str]:
    """Normal tokens, with the numbered parameter in place of each `?`."""
    texts: list[str] = []
    count = 0
    for token in found:
        count += token.text == "?"
        texts += ["[", str(count), "]"] if token.text == "?" else [normal(token)]
    return texts


def param_count(texts: list[str]) -> int:
    """How many parameters a query has: the greatest number behind a `[`, as far as a statement has room for as many."""
    numbers = [b for a, b in zip(texts, texts[1:]) if a == "[" and b.isascii() and b.isdecimal()]
    return max((int(it) if len(it) < 6 else STATEMENT_BYTES for it in numbers), default=0)


def name_in(kind: Kind, found: list[Token], texts: list[str]) -> str:
    """The query that the statement runs or defines."""
    if kind is Kind.SELECT:
        return query_name(texts)
    if kind in (Kind.RUN, Kind.PREPARE) and len(found) > 1:
        return found[1].text.lower()
    return ""


def read_statement(text: object) -> Statement:
    """The statement that a text is. Its end may lack the `;`; a comment behind it is left out."""
    return read_text(plain_text(text, "a statement"))


@lru_cache(maxsize=1024)
def read_text(text: str) -> Statement:
    """The same of a plain text."""
    if not text.isascii():
        check_utf8(text)
    found = whole_tokens(text)
    check_places(found)
    first = found[0].text.upper()
    kind = Kind(first) if first in Kind.__members__ and first != "OTHER" else Kind.OTHER
    places = [token for token in found if token.text == "?"]
    texts = numbered_tokens(found)
    if places and kind.is_numbered and any(token.is_mark("[") for token in found):
        raise ProgrammingError("a statement has either ? or numbered parameters, and not both")
    params = param_count(texts) if kind is Kind.SELECT else 0 if kind.is_numbered else len(places)
    parts = cut_at([(token.start, token.end) for token in places], text, found[-1].end)
    pages = any(token.is_word("PAGINATE") for token in found)
    widths = (1,) * len(places)
    rows = len(begins_of(found)) if kind is Kind.BATCH else int(kind.is_write)
    return Statement(text, kind, name_in(kind, found, texts), parts, params, template_of(parts), widths, pages, rows)


def cut_at(places: list[tuple[int, int]], text: str, end: int) -> tuple[str, ...]:
    """The parts of a text, up to its end, between places that begin and end at these letters."""
    starts, ends = [0, *(after for _, after in places)], [*(before for before, _ in places), end]
    return tuple(text[start:stop] for start, stop in zip(starts, ends))


def template_of(parts: tuple[str, ...]) -> str:
    """The parts with `%s` between them."""
    return "%s".join(part.replace("%", "%%") for part in parts)


def batch_of(writes: Sequence[Sent]) -> Sent:
    """Several writes as one statement, each with its values."""
    fillings = tuple(chain.from_iterable(sent.fillings for sent in writes))
    return Sent(batch_statement([sent.statement for sent in writes]), "", fillings)


def batch_statement(writes: Sequence[Statement]) -> Statement:
    """Several writes as one statement, with the places of all of them."""
    parts, before = [BATCH_HEAD], ""
    for write in writes:
        parts[-1] += before + write.parts[0]
        parts += write.parts[1:]
        before = BETWEEN
    text = BATCH_HEAD + BETWEEN.join(write.source() for write in writes)
    widths = tuple(chain.from_iterable(write.widths for write in writes))
    cut = tuple(parts)
    return Statement(text, Kind.BATCH, "", cut, len(widths), template_of(cut), widths, False, len(writes))


@lru_cache(maxsize=8)
def repeated(write: Statement, count: int) -> Statement:
    """A batch of one write so many times, each time with values of its own."""
    return batch_statement([write] * count)


@lru_cache(maxsize=1024)
def run_of(select: Statement, name: str) -> Statement:
    """The RUN of a SELECT that is prepared under this name. Its text is still the SELECT's, for who reads a refusal."""
    places = ", ".join(["%s"] * select.params)
    return select._replace(kind=Kind.RUN, template=f"RUN {name} ({places})")


def prepare_of(select: Statement) -> Sent:
    """What prepares a SELECT under the name of its tokens."""
    return Sent(select._replace(kind=Kind.PREPARE), f"PREPARE {select.name} AS ", select.numbered())
