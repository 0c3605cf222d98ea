"""The numbers of refusals and the words for counts, as pq_base declares them, and where else they have to be so."""

import re
from collections.abc import Iterator
from typing import NamedTuple

from tools.repository import Repository

WORD_TABLE = "pq_base/src/word_table.rt"
REFUSAL, REPORT, PRINTED = "pq_base/src/refusal.rt", "pq_print/src/report.rt", "pq_print/src/refusal.rt"
CONSTANT = re.compile(r"(?:^/// (.*)\n)?^pub const (\w+): \w+ = (\d+);", re.MULTILINE)
VARIANT = re.compile(r"((?:^ {4}///.*\n)*)^ {4}(\w+)(?: \{([^}]*)\}|\([^)]*\))?,$", re.MULTILINE)
CODE = re.compile(r"\bE\d\d\d\b")
CODES = re.compile(r'codes "(\w+)"')
NUMBER_OF = re.compile(r"Refusal::(\w+)(?: \{ \.\. \})? => number_at\(refusal_place::(\w+)\)")
SAID_NUMBER = re.compile(r'^refusal_number (?:\(?refusal\.)(\w+)[^=]*= codes "(E\d\d\d)"', re.MULTILINE)
# What documents call a field, where it isn't its name.
TOLD = {"pred": "NUMBER", "place": "NUMBER", "cause": "CODE FIELDS"}


class Words(NamedTuple):
    """Words that are kept by their places: the table of words, the places by their constants, and what these tell."""

    table: list[str]
    places: dict[str, int]
    comments: dict[str, str]

    def word(self, constant: str) -> str:
        """The word of a constant; nothing where it has none."""
        place = self.places.get(constant, len(self.table))
        return self.table[place] if place < len(self.table) else ""


class Refusal(NamedTuple):
    """A refusal: its number, the variant with its fields, and what documents call these."""

    number: str
    variant: str
    fields: tuple[str, ...]

    @property
    def name(self) -> str:
        """The variant as documents write it. That of a batch is an end of a report."""
        own = self.variant if self.variant != "InBatch" else "End::InBatch"
        return f"{own} {{ {', '.join(self.fields)} }}" if self.fields else own

    @property
    def text(self) -> str:
        """The form of its report: the number, and what documents call the fields."""
        return " ".join([self.number, *(TOLD.get(field, field.upper()) for field in self.fields)])


def read(repository: Repository, path: str) -> str:
    return (repository.top / "crates" / path).read_text()


def words_of(repository: Repository, table: str, places: str) -> Words:
    """The words of this table of pq_base, and the constants of this file."""
    text = read(repository, WORD_TABLE)
    found = re.search(rf"^const {table}: [^=]*= \[([^\]]*)\]", text, re.MULTILINE)
    constants = list(CONSTANT.finditer(read(repository, f"pq_base/src/{places}.rt")))
    return Words(
        re.findall(r'"(\w+)"', found[1] if found else ""),
        {constant[2]: int(constant[3]) for constant in constants if constant[2] != "WORDS"},
        {constant[2]: constant[1] or "" for constant in constants},
    )


def numbers_of(repository: Repository) -> Words:
    """The numbers of refusals."""
    return words_of(repository, "REFUSALS", "refusal_place")


def counts_of(repository: Repository) -> Words:
    """The words that name a count outside its limit."""
    return words_of(repository, "COUNTS", "count_word")


def constant_of(variant: str) -> str:
    return re.sub(r"(?<=[a-z0-9])(?=[A-Z])", "_", variant).upper()


def variants_of(text: str, enum: str) -> list[tuple[str, tuple[str, ...], str]]:
    """The variants of this enum in a source: the name, the fields, and what the comment says."""
    found = re.search(rf"^pub enum {enum} \{{\n(.*?)^\}}", text, re.MULTILINE | re.DOTALL)
    return [
        (variant[2], tuple(re.findall(r"(\w+):", variant[3] or "")), variant[1])
        for variant in VARIANT.finditer(found[1] if found else "")
    ]


def all_variants(repository: Repository) -> list[tuple[str, tuple[str, ...], str]]:
    """The variants that are refusals: all of `Refusal`, and of the ends of a report those that have a number."""
    ends = variants_of(read(repository, REPORT), "End")
    places = numbers_of(repository).places
    own = [end for end in ends if constant_of(end[0]) in places]
    return [*variants_of(read(repository, REFUSAL), "Refusal"), *own]


def refusals_of(repository: Repository) -> list[Refusal]:
    """The refusals in the order of their numbers."""
    numbers = numbers_of(repository)
    found = [Refusal(numbers.word(constant_of(name)), name, fields) for name, fields, _ in all_variants(repository)]
    return sorted(found)


def flaws_of_words(repository: Repository, words: Words, spec: str, names: str) -> Iterator[str]:
    """The constants that no word has, and where the definitions have other words or other places."""
    if sorted(words.places.values()) != list(range(len(words.table))):
        yield f"{WORD_TABLE}: the constants of {names} are not just the places of the {len(words.table)} words"
    defined = re.search(rf"^{spec} =\n(.*?)(?:\n\n|\Z)", read(repository, "pq_base/specs/Words.antt"), re.M | re.S)
    if CODES.findall(defined[1] if defined else "") != words.table:
        yield f"pq_base/specs/Words.antt: {spec} has not the words of {WORD_TABLE}"
    said = read(repository, "pq_base/specs/WordPlaces.antt")
    for constant, word in re.findall(rf'\({names}\.(\w+), codes "(\w+)"\)', said):
        if words.word(constant) != word:
            yield f"pq_base/specs/WordPlaces.antt: {constant} is not the place of {word}"


def flaws_of_numbers(repository: Repository) -> Iterator[str]:
    """The variants without a number, the numbers without a variant, and comments that tell another one."""
    numbers, variants = numbers_of(repository), all_variants(repository)
    for constant in sorted(set(numbers.places) - {constant_of(name) for name, _, _ in variants}):
        yield f"pq_base/src/refusal_place.rt: {constant} is the place of no variant of {REFUSAL}"
    for name, _, comment in variants:
        number = numbers.word(constant_of(name))
        if not number:
            yield f"{REFUSAL}: {name} has no number: no {constant_of(name)} in pq_base/src/refusal_place.rt"
        elif CODE.findall(comment)[:1] not in ([number], []):
            yield f"{REFUSAL}: the comment of {name} has not the number {number}"
    for constant in numbers.places:
        if numbers.comments[constant] != f"{numbers.word(constant)}.":
            yield f"pq_base/src/refusal_place.rt: the comment of {constant} is not {numbers.word(constant)}"


def flaws_of_printing(repository: Repository) -> Iterator[str]:
    """Where what prints a refusal, or the definition of its text, has another number."""
    numbers = numbers_of(repository)
    names = [name for name, _, _ in variants_of(read(repository, REFUSAL), "Refusal")]
    printed = dict(NUMBER_OF.findall(read(repository, PRINTED)))
    text = read(repository, "pq_print/specs/Refusals.antt")
    said = dict(SAID_NUMBER.findall(text))
    for name in names:
        if printed.get(name) != constant_of(name):
            yield f"{PRINTED}: number_of has not {constant_of(name)} for {name}"
        if said.get(name) != numbers.word(constant_of(name)):
            yield f"pq_print/specs/Refusals.antt: refusal_number of {name} is not {numbers.word(constant_of(name))}"
    if not re.search(rf'^in_batch_text .*= codes "{numbers.word("IN_BATCH")}"', text, re.MULTILINE):
        yield f"pq_print/specs/Refusals.antt: in_batch_text has not {numbers.word('IN_BATCH')}"


def flaws_of(repository: Repository) -> Iterator[str]:
    """Where the sources differ from what pq_base declares."""
    counts = counts_of(repository)
    yield from flaws_of_words(repository, numbers_of(repository), "refusals", "place")
    yield from flaws_of_words(repository, counts, "counts", "count")
    for constant in counts.places:
        if counts.word(constant) != constant.lower():
            yield f"pq_base/src/count_word.rt: {constant} is not the place of {constant.lower()}"
    yield from flaws_of_numbers(repository)
    yield from flaws_of_printing(repository)
