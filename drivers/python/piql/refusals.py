"""What each refusal means and the way out of it, read from REFUSALS.md, which the package has beside it."""

import re
from functools import cache
from pathlib import Path
from typing import NamedTuple

from .scripts import Place, character_of, tokens
from .syntax import CODE, has_cause, way_out_at

RULE = re.compile(r"^\*\*(E\d\d\d)([A-Z ]*): ?(.*?)(?=^\*\*E\d|^#|\Z)", re.DOTALL | re.MULTILINE)
ROW = re.compile(r"^\| (.*?) \| (.*?) \|$", re.MULTILINE)
# In a table's cell.
PIPE = "\\|"
LINK = re.compile(r"\[([^]]*)\]\([^)]*\)")
WAY = re.compile(r"\*Ways? out:?\*:?")
WITHOUT_DROP = "; `python -m piql rebuild OLD NEW SCHEMA` makes one"
# A word of the document that stands for a field, and for nothing else.
STAND_IN = re.compile(r"\b(?:ALIAS|NAME|NUMBER)\b")
# A headline with no more characters says too little alone.
SHORT = 10
REBUILDS = ("definitions", "tables", "indexes")


class Rule(NamedTuple):
    """A refusal in general: its fields by their names, its cause, its way out, and a way out for each word or case."""

    code: str
    fields: tuple[str, ...]
    headline: str
    cause: str
    way_out: str
    cases: tuple[tuple[str, str], ...]


class Refusal(NamedTuple):
    """A refusal of one statement. `place` is where its tokens spell nothing, or None.

    `detail` tells which name, key or number of values it is, where the definitions are known; `table` and `key` are
    that table and its columns. `causes` are those of a query without a bound, as far as they are known for certain.
    `condition` is the condition or the predicate, and `is_value` says that a value is at fault in it. Where a write of
    a batch was refused, `number` and `fields` are its own, and `number_in_batch` says which one it is, from 1.
    """

    number: str
    fields: dict[str, str]
    statement: str
    place: Place | None
    headline: str
    cause: str
    way_out: str
    detail: str = ""
    table: str | None = None
    key: tuple[str, ...] = ()
    causes: tuple[str, ...] = ()
    condition: str = ""
    is_value: bool = False
    number_in_batch: int | None = None
    write: str | None = None


def one_line(text: str) -> str:
    """A paragraph of the document as one line, each of its links as the words that it is on."""
    return " ".join(LINK.sub(r"\1", text.replace("**", "")).split())


def filled(text: str, fields: dict[str, str]) -> str:
    """A text with the name or the number that the refusal has where the document has a word for it."""
    return STAND_IN.sub(lambda found: fields.get(found[0].lower(), found[0]), text)


def read_rule(code: str, fields: str, text: str) -> Rule:
    """A rule from its paragraphs: the first has the cause and mostly the way out, a table has ways for some cases."""
    paragraph, _, rest = text.partition("\n\n")
    cause, *ways = WAY.split(paragraph, maxsplit=1)
    bold = one_line(cause.partition("**")[0])
    headline = bold if bold.endswith(".") and len(bold) > SHORT else one_line(cause)
    rows = ((case.replace(PIPE, "|"), way) for case, way in ROW.findall(text) if not set(case + way) <= set("- |"))
    way_out = one_line(ways[0] if ways else "")
    return Rule(code, tuple(fields.lower().split()), headline, one_line(cause), way_out, tuple(rows))


def document() -> str:
    """The package's copy of docs/REFUSALS.md, which a test compares with it."""
    return Path(__file__).with_name("REFUSALS.md").read_text(encoding="utf-8")


@cache
def rules() -> dict[str, Rule]:
    """The rules of the document by their codes."""
    text = document()
    return {found[1]: read_rule(found[1], found[2], found[3]) for found in RULE.finditer(text)}


def cases_with(rule: Rule, words: set[str]) -> str:
    """The way out of the first case that names one of the words as code."""
    for case, way in rule.cases:
        if words & {word.split(" ")[0] for word in CODE.findall(case)}:
            return one_line(way)
    return ""


def unbounded(rule: Rule, statement: str, known: tuple[str, ...] = ()) -> str:
    """The ways out of the causes that a query without a bound has, or may have where none are known."""
    causes = [(case, way) for case, way in rule.cases if CODE.search(case)]
    likely = [(case, way) for case, way in causes if has_cause(case, statement)]
    found = [(case, way) for case, way in causes if known and case.startswith(known)] or likely or causes
    if len(found) == 1:
        return one_line(found[0][1])
    return "; ".join(f"{case}: {one_line(way)}" for case, way in found)


def with_causes(refusal: Refusal) -> Refusal:
    """A refusal whose way out is that of the causes that are known."""
    rule = rules().get(refusal.number)
    if not refusal.causes or rule is None:
        return refusal
    return refusal._replace(way_out=unbounded(rule, refusal.statement, refusal.causes))


def way_out_of(rule: Rule, fields: tuple[str, ...], statement: str, place: Place | None) -> str:
    """The way out for these fields, or for the token at the place."""
    if rule.code == "E206" and fields:
        return cases_with(rule, {fields[0]}) + (WITHOUT_DROP if fields[0] in REBUILDS else "")
    if place is not None:
        return one_line(way_out_at(rule.cases, statement, character_of(statement, place))) or rule.way_out
    if rule.code in ("E501", "E502"):
        return cases_with(rule, {token.text.upper() for token in tokens(statement)[:1]}) or rule.way_out
    if rule.code == "E203":
        return cases_with(rule, {fields[0]}) or rule.way_out
    if rule.code == "E304":
        return unbounded(rule, statement)
    return rule.way_out


def refusal_of(fields: tuple[str, ...], statement: str, place: Place | None = None) -> Refusal:
    """The refusal that a report's end line has, for the statement as its writer knows it."""
    code, values = fields[0], fields[1:]
    rule = rules().get(code) or Rule(code, tuple(f"field{i + 1}" for i in range(len(values))), "", "", "", ())
    named = dict(zip(rule.fields, values))
    texts = (rule.headline, rule.cause, way_out_of(rule, values, statement, place))
    return Refusal(code, named, statement, place, *(filled(text, named) for text in texts))
