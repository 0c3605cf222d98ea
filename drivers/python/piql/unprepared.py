"""A SELECT that isn't prepared: how it is sent with its values in their places, and what is told where it can't be.

A value stands there as a literal, and only where a parameter may stand: directly behind a comparison. Else the SELECT
is sent with numbered parameters, and the engine refuses it at its place, as it would refuse its PREPARE.
"""

from collections.abc import Sequence
from functools import lru_cache
from typing import NamedTuple

from .conditions import is_comparison
from .details import Detail
from .errors import refused
from .refusals import refusal_of
from .reports import Report
from .schema import Schema
from .scripts import Token, tokens
from .statements import Kind, Sent, Statement, cut_at, template_of

UNPREPARED = (
    "this SELECT isn't prepared in the store, the connection was made with prepare=False, and the engine answers no"
    " SELECT by itself, as its language is one before 6: {text}"
)
NO_PAGES = (
    "a SELECT that isn't prepared has no further page. PREPARE it with its PAGINATE, and RUN it; or"
    " connect(.., prepare=True), which prepares each SELECT for good"
)
# How many operations an INSERT has for one changed pair more: for the second three, as an intent comes with it.
FIRST_MORE, EACH_MORE = 3, 1


class Parameter(NamedTuple):
    """The place of a value in a SELECT: the letters at which it begins and ends, and the number of its value."""

    start: int
    end: int
    number: int


def parameter_at(found: Sequence[Token], at: int) -> Parameter | None:
    """The numbered parameter that begins at a token, if one does."""
    end = at + 4 if at + 2 < len(found) and found[at + 2].is_mark(":") else at + 2
    if not (found[at].is_mark("[") and end < len(found) and found[end].is_mark("]")):
        return None
    number = found[at + 1].text
    is_number = number.isascii() and number.isdecimal() and len(number) < 6
    return Parameter(found[at].start, found[end].end, int(number)) if is_number else None


def parameters_of(found: Sequence[Token]) -> list[Parameter] | None:
    """The places of a SELECT's values in order; None where one isn't behind a comparison, or isn't a parameter."""
    places: list[Parameter] = []
    for at, token in enumerate(found):
        if token.text != "?" and not token.is_mark("["):
            continue
        is_mark = token.text == "?"
        place = Parameter(token.start, token.end, len(places) + 1) if is_mark else parameter_at(found, at)
        if place is None or at == 0 or not is_comparison(found[at - 1]):
            return None
        places.append(place)
    return places


@lru_cache(maxsize=1024)
def with_places(select: Statement) -> tuple[Statement, tuple[int, ...]] | None:
    """A SELECT that is cut at the places of its values, and the number of the value at each; None as above."""
    places = parameters_of(tokens(select.text))
    if places is None or {place.number for place in places} != set(range(1, select.params + 1)):
        return None
    parts = cut_at([(it.start, it.end) for it in places], select.text, len(select.source()))
    widths = tuple(it.end - it.start for it in places)
    cut = select._replace(parts=parts, widths=widths, template=template_of(parts))
    return cut, tuple(it.number for it in places)


def with_values(select: Statement, values: Sequence[str]) -> Sent:
    """A SELECT as the engine gets it, with the values that it takes written in it."""
    for number, value in enumerate(values, 1):
        if value == "NULL":
            # Behind a comparison `null` is the name of a column.
            raise refused(refusal_of(("E402", str(number)), select.text)._replace(detail=f"It is value {number}."))
    found = with_places(select)
    if found is None:
        return Sent(select, "", select.numbered())
    cut, numbers = found
    # A blank on each side keeps a value apart from the letters beside a parameter's brackets.
    return Sent(cut, "", tuple(f" {values[number - 1]} " for number in numbers))


def is_no_statement(fields: tuple[str, ...], statement: Statement) -> bool:
    """Whether an engine has refused a SELECT at its first word: its language has no such statement."""
    if fields[0] != "E104" or statement.kind is not Kind.SELECT:
        return False
    return int(fields[1]) == len(statement.text[: tokens(statement.text)[0].start].encode())


def explain_of(select: Statement) -> Sent:
    """The EXPLAIN of a SELECT, which tells the index that it wants."""
    return Sent(select._replace(kind=Kind.EXPLAIN), "EXPLAIN ", select.numbered())


def wanted_index(select: Statement, explained: Report, schema: Schema) -> Detail:
    """What a SELECT wants that is refused with E406: the PREPARE that makes its index, and what that costs a write."""
    index = explained.indexes()[0]
    is_first = index.number == 1 and all(it.table != index.table for it in schema.counters().values())
    more = f"{FIRST_MORE} operations" if is_first else f"{EACH_MORE} operation"
    told = f"It is {index.table} ({', '.join(index.columns)}), which `PREPARE name AS {prepared(select)}` makes."
    columns = tuple(column.removesuffix(" DESC") for column in index.columns)
    return Detail(f"{told} An INSERT into {index.table} then has {more} more.", index.table, columns)


def prepared(select: Statement) -> str:
    """A SELECT as a PREPARE has it, with a parameter in place of each number and each text: no message has a value."""
    found, texts, count = tokens(select.text), [], select.params
    marks = iter(range(1, count + 1))
    for before, token in zip([None, *found], found):
        text = token.text
        if token.text == "?":
            text = f"[{next(marks)}]"
        elif token.kind in ("number", "text") and before is not None and is_comparison(before):
            count += 1
            text = f"[{count}]"
        is_apart = before is not None and before.end < token.start
        texts.append(f" {text}" if is_apart else text)
    return "".join(texts).removesuffix(";").rstrip()
