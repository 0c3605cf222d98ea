"""Reading scripts: their pieces, the tokens of a piece and places in a text, as docs/LANGUAGE.md has them."""

import re
from collections.abc import Iterator
from typing import NamedTuple

SCRIPT_BYTES = 16_777_216
STATEMENT_BYTES = 65_536
NAME_BYTES = 32
LEAST, GREATEST = -(2**63), 2**63 - 1
# A number of no more digits is one of 64 bits.
SAFE_DIGITS = len(str(GREATEST)) - 1
KEYWORDS = frozenset(
    "AFTER AND AS ASC BOOL BY CARDINALITY CREATE DELETE DESC EXPLAIN FALSE FOREIGN FROM INSERT INT INTO JOIN KEY LIMIT"
    " ORDER PAGINATE PREPARE PRIMARY REFERENCES RUN SELECT SET SHOW TABLE TEXT TRUE UPDATE VALUES WHERE".split()
)

NAME = re.compile(r"[A-Za-z_][A-Za-z0-9_]*+")
# Each repetition is possessive: it gives nothing back, so a text that doesn't match takes no longer than one that does.
# A text or a comment without an end goes on to the end of all here, where no `;` follows, so that it matches none of
# these: Python 3.11.2 takes for one of a group a part that failed behind its first letters.
PIECE = re.compile(rb"(?:[^';-]++|-(?!-)|'[^']*+(?:'|\Z)|--[^\n]*+(?:\n|\Z))*+;")
WHITE_PIECE = re.compile(rb"(?:[ \t\r\n]++|--[^\n]*+(?:\n|\Z))*+;")
ONE_PIECE = re.compile(rb"(?!" + WHITE_PIECE.pattern + rb")" + PIECE.pattern)
WHITE_REST = re.compile(rb"(?:[ \t\r\n]++|--[^\n]*+(?:\n|\Z))*+")
TOKEN = re.compile(
    r"(?P<white>(?:[ \t\r\n]++|--[^\n]*+(?:\n|\Z))++)|(?P<word>[A-Za-z_][A-Za-z0-9_]*)|(?P<number>-?[0-9]+)"
    r"|(?P<text>'(?:[^']|'')*+')|(?P<mark><=|>=|<>|[(),;.\[\]:*=<>])|(?P<other>'.*|.)",
    re.DOTALL,
)


class Piece(NamedTuple):
    """A piece that isn't blank: its number, from 1, its place in the script's bytes, and whether it has a `;`."""

    number: int
    start: int
    end: int
    is_whole: bool


class Token(NamedTuple):
    """A token: its kind (`word`, `number`, `text`, `mark`, `other`), its letters, its place in the text."""

    kind: str
    text: str
    start: int
    end: int

    def is_word(self, *words: str) -> bool:
        """Whether the token is one of these words, which are given in capitals."""
        return self.kind == "word" and self.text.upper() in words

    def is_mark(self, mark: str) -> bool:
        """Whether the token is this mark."""
        return self.kind == "mark" and self.text == mark


class Place(NamedTuple):
    """A place in a text: line and column, both from 1, the column in characters."""

    line: int
    column: int


def pieces(script: bytes) -> Iterator[Piece]:
    """The pieces that aren't blank, in order; the last one may lack its `;`."""
    start, number = 0, 0
    while found := PIECE.match(script, start):
        is_long = found.end() - start > STATEMENT_BYTES
        if is_long or not WHITE_PIECE.fullmatch(script, start, found.end()):
            number += 1
            yield Piece(number, start, found.end(), True)
        start = found.end()
    if not WHITE_REST.fullmatch(script, start):
        yield Piece(number + 1, start, len(script), False)


def is_one_piece(statement: bytes) -> bool:
    """Whether the bytes are exactly one piece that isn't blank, so that the engine answers them by one report."""
    return ONE_PIECE.fullmatch(statement) is not None


def tokens(text: str) -> list[Token]:
    """The tokens of a text, without white bytes and comments."""
    found = (Token(str(it.lastgroup), it.group(), it.start(), it.end()) for it in TOKEN.finditer(text))
    return [token for token in found if token.kind != "white"]


def plain_number(text: str) -> str:
    """A number without zeros before it. It may have more digits than Python makes a number of."""
    if text[:1] > "0":
        return text
    digits = text.removeprefix("-").lstrip("0") or "0"
    return f"-{digits}" if text.startswith("-") and digits != "0" else digits


def is_of_64_bits(text: str) -> bool:
    """Whether a number is one that a column can have."""
    if len(text) <= SAFE_DIGITS:
        return True
    plain = plain_number(text)
    return len(plain) <= len(str(LEAST)) and LEAST <= int(plain) <= GREATEST


def place_at(text: str, at: int) -> Place:
    """The place of a character of the text, from 0."""
    return Place(text.count("\n", 0, at) + 1, at - text.rfind("\n", 0, at))


def character_of(text: str, place: Place) -> int:
    """The character of the text, from 0, that stands at a place."""
    return sum(len(line) + 1 for line in text.split("\n")[: place.line - 1]) + place.column - 1


def character_at(text: bytes, at: int) -> int:
    """How many characters stand before a byte of a UTF-8 text."""
    return len(text[:at].decode(errors="replace"))


def first_token(piece: bytes) -> int:
    """The byte at which the first token of a piece stands."""
    found = WHITE_REST.match(piece)
    return found.end() if found else 0
