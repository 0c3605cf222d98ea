"""What documents show: their blocks by kinds, and the commands of a console with what they print."""

import pathlib
import re
from collections.abc import Iterator
from typing import NamedTuple

from tools.repository import TOP

BLOCK = re.compile(r"^```(\w*)\n(.*?)^```$", re.MULTILINE | re.DOTALL)
LEFT_OUT = ".."
# The kinds of blocks: what each is compared with, or why it is run by no test.
KINDS = {
    "piql": "bin/examples: it stands in an example or in a script of docs/scripts/",
    "report": "bin/examples: it stands in the output of an example",
    "console": "each command is run and prints what is shown",
    "python": "it stands in a file of docs/scripts/",
    "rattle": "it stands in the sources",
    "antt": "it stands in the sources",
    "mermaid": "bin/layers draws it",
    "ebnf": "its keywords are those of the language",
    "edit": "it is one of the wrong bodies",
    "sh": "not run: it installs, serves, or takes an hour; its commands are there",
    "ini": "not run: a service of systemd; its command is there",
    "text": "not run: a form, a picture or what a prover says",
}


class Block(NamedTuple):
    """A block of a document, with the document's name and the line at which it begins."""

    place: str
    kind: str
    text: str


class Command(NamedTuple):
    """A command, with the lines that it prints. A line `..` stands for any lines."""

    place: str
    command: str
    output: list[str]


def documents(top: pathlib.Path = TOP) -> list[pathlib.Path]:
    """The documents at the top, in docs/, and of the site and the trials."""
    return [path for folder in (".", "docs", "site", "trials") for path in sorted((top / folder).glob("*.md"))]


def blocks(document: pathlib.Path, *kinds: str) -> Iterator[Block]:
    """The blocks of these kinds."""
    whole = document.read_text(encoding="utf-8")
    for found in BLOCK.finditer(whole):
        if found[1] in kinds:
            line = whole.count("\n", 0, found.start()) + 1
            yield Block(f"{document.relative_to(TOP)}:{line}", found[1], found[2])


def commands(document: pathlib.Path) -> Iterator[Command]:
    """The commands of all blocks of a console, in order."""
    for block in blocks(document, "console"):
        for part in re.split(r"^\$ ", block.text, flags=re.MULTILINE)[1:]:
            command, *output = part.rstrip("\n").split("\n")
            yield Command(block.place, command, output)


def paragraphs(document: pathlib.Path) -> Iterator[str]:
    """The paragraphs and items of lists, without blocks and tables."""
    text = BLOCK.sub("", document.read_text(encoding="utf-8"))
    parts = re.split(r"\n\s*\n|\n(?=[-*|] |\d+\. )", text)
    yield from (part for part in parts if part and not part.startswith("|"))


def is_shown(shown: list[str], printed: list[str]) -> bool:
    """Whether the lines are those that are shown, where `..` stands for any."""
    if LEFT_OUT not in shown:
        return shown == printed
    at = shown.index(LEFT_OUT)
    if printed[:at] != shown[:at]:
        return False
    return any(is_shown(shown[at + 1 :], printed[begin:]) for begin in range(at, len(printed) + 1))
