"""Values of Python as the statements write them."""

from .errors import DataError, ProgrammingError
from .reports import Value
from .scripts import GREATEST, LEAST, is_of_64_bits, plain_number, tokens

LITERALS: dict[str, Value] = {"TRUE": True, "FALSE": False, "NULL": None}


def quoted_text(text: str) -> str:
    """A text between quotes, each of its own quotes written twice. A class that goes on from str isn't asked how."""
    return "'" + str.replace(text, "'", "''") + "'"


def written_number(number: int) -> str:
    """A whole number as a statement writes it."""
    if LEAST <= number <= GREATEST:
        return str(number)
    raise DataError("a number is outside the 64 bits of INT")


def quoted(value: object) -> str:
    """A value as a statement writes it: a whole number, True or False, a text, or None for NULL.

    One of a class that goes on from int or str is written as the number or the text that it holds, by the methods of
    int and str alone: what its own methods say would stand in the statement as it is.
    """
    kind = type(value)
    if kind is int:
        return written_number(value)  # type: ignore[arg-type] - its type was asked
    if issubclass(kind, str):
        return quoted_text(value)  # type: ignore[arg-type]
    if value is None:
        return "NULL"
    if kind is bool:
        return "TRUE" if value else "FALSE"
    if issubclass(kind, int):
        return written_number(int.__int__(value))  # type: ignore[arg-type]
    raise ProgrammingError(f"a value is an int, a bool, a str or None, and no {kind.__name__}")


def read_literal(text: str) -> Value:
    """The value that a text is where a statement has it: a number, TRUE or FALSE, NULL, or a text with its quotes."""
    found = tokens(text)
    if len(found) == 1:
        token = found[0]
        if token.kind == "number" and is_of_64_bits(token.text):
            return int(plain_number(token.text))
        if token.kind == "text":
            return token.text[1:-1].replace("''", "'")
        if token.text.upper() in LITERALS:
            return LITERALS[token.text.upper()]
    raise ProgrammingError("this is no value: a number of 64 bits, TRUE, FALSE, NULL, or a text between quotes")
