"""Rows as a table for a reader."""

from collections.abc import Sequence

from .reports import Row, Value

WIDEST = 60


def cell(value: Value) -> str:
    """A value on one line; a long text is cut."""
    if value is None:
        return "NULL"
    if isinstance(value, bool):
        return "true" if value else "false"
    if isinstance(value, int):
        return str(value)
    shown = "".join(letter if letter.isprintable() else repr(letter)[1:-1] for letter in value)
    return shown if len(shown) <= WIDEST else shown[: WIDEST - 2] + ".."


def is_number(value: Value) -> bool:
    """Whether a value is shown at the right."""
    return isinstance(value, int) and not isinstance(value, bool)


def table(head: Sequence[str], rows: Sequence[Row]) -> str:
    """The rows under their column names, numbers at the right."""
    cells = [[cell(value) for value in row] for row in rows]
    widths = [max(map(len, column)) for column in zip(head, *cells)]
    right = [bool(rows) and all(is_number(row[i]) or row[i] is None for row in rows) for i in range(len(head))]

    def line(texts: Sequence[str]) -> str:
        padded = (text.rjust(w) if at_right else text.ljust(w) for text, w, at_right in zip(texts, widths, right))
        return " | ".join(padded).rstrip()

    rule = "-+-".join("-" * width for width in widths)
    return "\n".join([line(head), rule, *map(line, cells)])
