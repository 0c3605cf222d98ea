"""The numbers of refusals and of limits in the tables of the documents, from where the sources declare them."""

import dataclasses
import difflib
import functools
import re
import sys
from collections.abc import Callable, Iterable, Iterator

from tools import limits, refusals
from tools.limit_rows import OF_ROWS, OF_WORDS
from tools.refusals import Refusal
from tools.repository import TOP, Repository
from tools.statuses import USAGE
from tools.tables import Lost, Rows, rows_of, with_numbers, with_rows

FORMATS, BOUNDS = "docs/FORMATS.md", "docs/BOUNDS.md"
# The package has a copy of the first one.
REFUSALS = ("docs/REFUSALS.md", "drivers/python/piql/REFUSALS.md")
CODES = "| Code | Variant | Text | Comes if |"
DECIDED = "| Code | Decided by | Defined by |"
WORDS = "| Place | Word | Comes outside | Decided by | Defined by |"
WAYS_OUT = "| Word | Way out |"
DECLARED = "| Limit | Number | In the code | In the definitions |"
WORD = re.compile(r"`(\w+)`")
HEAD = re.compile(r"^\*\*(E\d\d\d)([A-Z ]*):", re.MULTILINE)
# What a head of REFUSALS.md calls a field in full.
IN_FULL = {"OPS": "OPERATIONS"}


@dataclasses.dataclass
class Numbers:
    """What the sources declare, and what is found missing while it is written into documents."""

    refusals: list[Refusal]
    words: list[str]
    limits: dict[str, int]
    flaws: list[str] = dataclasses.field(default_factory=list)

    def numbers(self, of: Iterable[str]) -> list[int]:
        return [self.limits[what] for what in of]

    def tell(self, document: str, flaw: str) -> None:
        self.flaws.append(f"{document}: {flaw}")

    def compare(self, document: str, table: str, wanted: Iterable[str], rows: Iterable[str]) -> None:
        """Tells what has no row or more than one, and the rows of nothing."""
        wanted, rows = list(wanted), list(rows)
        for name in wanted:
            if rows.count(name) != 1:
                self.tell(document, f"{name} has {rows.count(name) or 'no'} rows in {table}")
        for name in dict.fromkeys(rows):
            if name not in wanted:
                self.tell(document, f"{name} has a row in {table}, and is nothing that the sources have")

    def with_codes(self, rows: Rows) -> Rows:
        """The rows of the refusals in the order of their numbers, by their variants."""
        known = {refusal.variant: refusal for refusal in self.refusals}
        own = {variant_in(row): row for row in rows}
        self.compare(FORMATS, CODES, known, map(variant_in, rows))
        if sorted(map(variant_in, rows)) != sorted(known):
            return rows
        return [[it.number, f"`{it.name}`", f"`{it.text}`", *own[it.variant][3:]] for it in self.refusals]

    def with_cell(self, document: str, cells: list[str], at: int, of: tuple[str, ...]) -> list[str]:
        """The row with the numbers of these limits in one of its cells."""
        cell = with_numbers(cells[at], self.numbers(of)) if of else cells[at]
        if cell is None:
            told = ", ".join(f"{what} {self.limits[what]:,}" for what in of)
            self.tell(document, f"the cell `{cells[at]}` of {cells[0]} has no place for {told}")
            return cells
        return [*cells[:at], cell, *cells[at + 1 :]]

    def with_words(self, rows: Rows) -> Rows:
        """The rows of the words for counts in the order of their places, with the limits of each."""
        told = [row[1].strip("`") for row in rows]
        self.compare(FORMATS, WORDS, self.words, told)
        self.compare("bin/tools/limit_rows.py", "OF_WORDS", self.words, OF_WORDS)
        if not sorted(told) == sorted(OF_WORDS) == sorted(self.words):
            return rows
        own = dict(zip(told, rows))
        return [
            self.with_cell(FORMATS, [str(place), *own[word][1:]], 2, OF_WORDS[word])
            for place, word in enumerate(self.words)
        ]

    def with_ways_out(self, document: str, rows: Rows) -> Rows:
        """The rows of the ways out for each word, as they are."""
        self.compare(document, WAYS_OUT, self.words, [word for row in rows for word in WORD.findall(row[0])])
        return rows

    def with_limits(self, document: str, header: str, rows: Rows) -> Rows:
        """The rows of a table of limits with their numbers."""
        known = OF_ROWS[document, header]
        self.compare(document, header, known, [row[0] for row in rows])
        return [self.with_cell(document, row, 1, known.get(row[0], ())) for row in rows]

    def renumbered(self, formats: str) -> dict[str, Refusal]:
        """The refusals by the numbers that documents have for them, which the rows of their variants tell."""
        known = {refusal.variant: refusal for refusal in self.refusals}
        try:
            rows = rows_of(formats, CODES)
        except Lost:
            rows = []
        return {row[0]: known[variant_in(row)] for row in rows if variant_in(row) in known}

    def with_decisions(self, old: dict[str, Refusal], rows: Rows) -> Rows:
        """The rows that tell where each refusal is decided, with its number."""
        numbers = [old[row[0]].number if row[0] in old else row[0] for row in rows]
        self.compare(FORMATS, DECIDED, [refusal.number for refusal in self.refusals], numbers)
        return sorted([number, *row[1:]] for number, row in zip(numbers, rows))

    def with_heads(self, document: str, old: dict[str, Refusal], text: str) -> str:
        """The document of refusals with the number and the fields of each at its head."""
        told = [old[number].number if number in old else number for number, _ in HEAD.findall(text)]
        self.compare(document, "heads", [refusal.number for refusal in self.refusals], told)
        return HEAD.sub(lambda found: f"**{head_of(old[found[1]])}:" if found[1] in old else found[0], text)


def variant_in(row: list[str]) -> str:
    """The variant that a row tells of, without its fields."""
    return row[1].strip("`").partition(" ")[0].rpartition("::")[2]


def head_of(refusal: Refusal) -> str:
    return " ".join(IN_FULL.get(word, word) for word in refusal.text.split())


def declared_rows(numbers: Numbers) -> Rows:
    """For each limit its number, and the places where it is declared."""
    rows = []
    for it in limits.LIMITS:
        code = [place.told() for place in it.places if not place.is_definition]
        definitions = [place.told() for place in it.places if place.is_definition]
        cells = ["; ".join(dict.fromkeys(places)) for places in (code, definitions)]
        rows.append([it.what, f"{numbers.limits[it.what]:,}", *cells])
    return rows


def table(header: str, change: Callable[[Rows], Rows]) -> Callable[[str], str]:
    """What is made of a document by a change of one of its tables."""
    return functools.partial(with_rows, header=header, change=change)


def changes(numbers: Numbers, formats: str) -> Iterator[tuple[str, Callable[[str], str]]]:
    """For each document what is made of its text. That of FORMATS.md as it is tells which number is whose."""
    old = numbers.renumbered(formats)
    yield FORMATS, table(CODES, numbers.with_codes)
    yield FORMATS, table(DECIDED, functools.partial(numbers.with_decisions, old))
    yield FORMATS, table(WORDS, numbers.with_words)
    for document in REFUSALS:
        yield document, functools.partial(numbers.with_heads, document, old)
        yield document, table(WAYS_OUT, functools.partial(numbers.with_ways_out, document))
    for document, header in OF_ROWS:
        yield document, table(header, functools.partial(numbers.with_limits, document, header))
    yield BOUNDS, table(DECLARED, lambda _: declared_rows(numbers))


def declared(repository: Repository) -> Numbers:
    """What the sources of a repository declare."""
    found = {it.what: limits.number_of_limit(repository, it.what) for it in limits.LIMITS}
    return Numbers(refusals.refusals_of(repository), refusals.counts_of(repository).table, found)


def written(repository: Repository) -> tuple[dict[str, str], list[str]]:
    """The documents with the numbers of the sources, and what is missing in them."""
    numbers = declared(repository)
    texts: dict[str, str] = {}
    for document, change in changes(numbers, (repository.top / FORMATS).read_text()):
        text = texts.get(document) or (repository.top / document).read_text()
        try:
            texts[document] = change(text)
        except Lost as lost:
            numbers.tell(document, str(lost))
    return texts, numbers.flaws


def differences(document: str, old: str, new: str) -> Iterator[str]:
    """The lines of a document that have other numbers than the sources."""
    was, now = old.split("\n"), new.split("\n")
    return difflib.unified_diff(was, now, document, f"{document} as the sources have it", n=0, lineterm="")


def compared(repository: Repository, write: bool = False) -> list[str]:
    """A line for all that differs or is missing; documents are looked at where the sources agree.

    The lines of tables are written where that is wanted, and told else.
    """
    flaws = [*refusals.flaws_of(repository), *limits.flaws_of(repository)]
    if flaws:
        return flaws
    texts, flaws = written(repository)
    for document, text in texts.items():
        path = repository.top / document
        if write:
            path.write_text(text)
        else:
            flaws += differences(document, path.read_text(), text)
    return flaws


def main(words: list[str]) -> int:
    if words not in ([], ["--write"]):
        print("numbers: it takes no word but --write", file=sys.stderr)
        return USAGE
    flaws = compared(Repository(TOP), bool(words))
    print(*flaws, sep="\n", end="\n" if flaws else "")
    return 1 if flaws else 0
