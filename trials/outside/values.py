"""A statement with values that were drawn is the statement as it was written, with one token for each `?`."""

import random

from piql.errors import Error
from piql.connection import fillings_of
from piql.scripts import Token, tokens
from piql.statements import Sent, read_statement
from recording_engine import Cutter
from test_pipe import Number, Text

PARTS = ("RUN q (", ")", "?", " ?", "? ", ",", " ", "'", "''", "-", "--", "\n", ";", "a", "1", "[1]", "%s", "é", "\0")
LETTERS = "'';;-- \n\0a%s?[]\\é𝄞"


def value_of(source: random.Random) -> object:
    """A value, or one of a class whose methods lie."""
    number, text = source.randrange(-(2**65), 2**65), "".join(source.choices(LETTERS, k=source.randrange(9)))
    return source.choice([number, number >> 40, Number(number >> 3), text, Text(text), True, None, 1.5, "\ud800"])


def plain(value: object) -> object:
    """The value that a lying class holds."""
    if isinstance(value, str):
        return str.__str__(value)
    return int.__int__(value) if isinstance(value, Number) else value


def is_token_of(token: Token, value: object) -> bool:
    """Whether a token is the one that spells a value."""
    if isinstance(value, str):
        return token.kind == "text" and token.text[1:-1].replace("''", "'") == value
    if value is None or isinstance(value, bool):
        return token.text == {None: "NULL", True: "TRUE", False: "FALSE"}[value]
    return token.kind == "number" and token.text == str(value)


def differs(text: str, sent: str, values: list[object]) -> str:
    """Where what is sent isn't what was written with these values."""
    written = [token for token in tokens(text) if not token.is_mark(";")]
    found, given = tokens(sent), iter(values)
    if len(found) != len(written) + 1 or not found[-1].is_mark(";"):
        return f"{len(written)} tokens became {len(found)}: {sent!r}"
    for before, after in zip(written, found):
        same = is_token_of(after, next(given)) if before.text == "?" else before.text == after.text
        if not same:
            return f"{before.text!r} became {after.text!r} in {sent!r}"
    return ""


def trial(source: random.Random) -> str:
    """One statement."""
    text = "RUN q (" + "".join(source.choices(PARTS, k=source.randrange(9))) + source.choice(["", ")", " -- ?"])
    values = [value_of(source) for _ in range(source.choice([text.count("?"), source.randrange(4)]))]
    try:
        statement = read_statement(Text(text))
        sent = Sent(statement, "", fillings_of(statement, values)).data()
    except Error:
        return ""
    cutter = Cutter()
    if [piece for piece in map(cutter.take, sent) if piece] != [sent]:
        return f"{sent!r} is not one statement"
    return differs(text, sent.decode(), [plain(value) for value in values])
