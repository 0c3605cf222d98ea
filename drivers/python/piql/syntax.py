"""What a syntax error mostly comes from: the row of a table of SQL's habits whose code is found at its place."""

import re
from collections.abc import Iterable, Sequence
from typing import NamedTuple

from .scripts import KEYWORDS, Token, is_of_64_bits, tokens

CODE = re.compile(r"`([^`]*)`")
# In a code it divides the words with which the statement begins from the tokens around the place.
DIVIDER = " .."


class Score(NamedTuple):
    """How well a code fits around a place: more of each is better, the first ones before the others."""

    words: int = 0
    tokens: int = 0
    own_tokens: int = 0
    is_at_place: bool = False
    head: int = 0


def is_large(token: Token) -> bool:
    """Whether a token is a number of more than 64 bits."""
    return token.kind == "number" and not is_of_64_bits(token.text)


def stands_for_any(pattern: Token) -> bool:
    """Whether a token of a code stands for others too: a number, a text, a name in small letters."""
    return pattern.kind in ("number", "text") or pattern.kind == "word" and pattern.text.islower()


def is_like(pattern: Token, token: Token) -> bool:
    """Whether a token is one that the code's token stands for. A keyword in small letters stands for all keywords."""
    if not stands_for_any(pattern):
        return token.text.upper() == pattern.text
    if pattern.kind != "word":
        return token.kind == pattern.kind and is_large(token) >= is_large(pattern)
    is_keyword = pattern.text.upper() in KEYWORDS
    return token.kind == "word" and (token.text.upper() in KEYWORDS) == is_keyword


def score(pattern: Sequence[Token], found: Sequence[Token], at: int) -> Score:
    """The score of a code whose tokens stand around a place."""
    own = [token for token in pattern if not stands_for_any(token)]
    size, words = len(pattern), sum(token.kind == "word" for token in own)
    # What SQL means otherwise may be read as a name, and the token behind it is the first that fits nothing.
    first = at - max(size - 1, 1 if own else 0)
    for start in range(min(at, len(found) - size), max(first, 0) - 1, -1):
        if all(map(is_like, pattern, found[start : start + size])):
            return Score(words, size, len(own), start + size > at)
    return Score()


def score_of(code: str, found: Sequence[Token], at: int) -> Score:
    """The score of a code. One with a divider fits only statements that begin with the words before it."""
    before, divider, after = code.partition(DIVIDER)
    if not divider:
        return score(tokens(code), found, at)
    head, rest = tokens(before), tokens(after)
    if len(head) > len(found) or not all(map(is_like, head, found)):
        return Score()
    if not rest:
        return Score(head=len(head))
    inner = score(rest, found, at)
    return inner._replace(head=len(head)) if inner > Score() else inner


def or_within(found: Sequence[Token], at: int) -> int:
    """The place of an OR within the parentheses that begin at a token: they are there for it. Else the token's own."""
    if not found[at].is_mark("(") or not found[at - 1].is_word("WHERE", "AND"):
        return at
    end = next((i for i in range(at, len(found)) if found[i].is_mark(")")), len(found))
    return next((i for i in range(at, end) if found[i].is_word("OR")), at)


def way_out_at(cases: Iterable[tuple[str, str]], statement: str, character: int) -> str:
    """The way out of the case whose code fits best around the token at a character, or nothing."""
    found = tokens(statement)
    if not found or not found[-1].is_mark(";"):
        # The driver's statements end without it.
        found.append(Token("mark", ";", len(statement), len(statement) + 1))
    at = next((i for i, token in enumerate(found) if token.start <= character < token.end), None)
    if at is None:
        return ""
    at = or_within(found, at)
    fits = [(score_of(code, found, at), way) for case, way in cases for code in CODE.findall(case)]
    best, way = max(fits, key=lambda fit: fit[0], default=(Score(), ""))
    return way if best > Score() else ""


def has_cause(case: str, statement: str) -> bool:
    """Whether a statement has a token of a case's codes. A case that begins with `no` wants that it has none."""
    found = tokens(statement)
    codes = {token.text for code in CODE.findall(case) for token in tokens(code)}
    return any(token.text.upper() in codes for token in found) != case.startswith("no ")
