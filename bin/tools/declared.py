"""Numbers as the sources declare them: a constant, or the number at a place in a function or a definition."""

import pathlib
import re
from typing import NamedTuple

from tools.repository import Repository

NUMBER = r"(?<![\w])(\d[\d_]*)(?!\w)"
# Where an item of code begins, and where one of definitions and one of Python ends.
ITEM = r"^\s*(?:pub(?:\([a-z]+\))? )?(?:const |fn |impl\b|struct |enum |trait )"
BLANK = re.compile(r"\n\s*\n")
UNINDENTED = re.compile(r"^\S", re.MULTILINE)


class Absent(Exception):
    """The sources have no number at a place where one has to be."""


class Declared(NamedTuple):
    """Where a number stands: a file of a crate, the item there, and the form around the number, which is `{}` there.

    The file is `crate/file.rt`, or `crate Module` of definitions, or a file of Python. An item without a form is the
    number's name: a constant, or a definition of the number alone.
    """

    place: str
    item: str
    form: str = ""

    @property
    def is_definition(self) -> bool:
        return " " in self.place

    def path(self, repository: Repository) -> pathlib.Path:
        crate, _, module = self.place.partition(" ")
        if module:
            return repository.folder(crate) / "specs" / f"{module}.antt"
        crate, _, rest = self.place.partition("/")
        return repository.folder(crate) / "src" / rest if rest.endswith(".rt") else repository.top / self.place

    def told(self) -> str:
        """The place as documents name it."""
        return f"`{self.item}` of `{self.place}`"


def text_of(declared: Declared, text: str) -> str:
    """The text of the item, which is empty where it isn't there."""
    name = re.escape(declared.item)
    if declared.place.endswith(".rt"):
        found = re.search(rf"^\s*(?:pub(?:\([a-z]+\))? )?(?:const|fn) {name}\b", text, re.MULTILINE)
        end = re.compile(ITEM, re.MULTILINE)
    else:
        found = re.search(rf"^(?:(?:abbrev|unfoldable|pub|record|data) )*{name}\b", text, re.MULTILINE)
        end = BLANK if declared.is_definition else UNINDENTED
    if not found:
        return ""
    behind = end.search(text, found.end())
    return text[found.start() : behind.start() if behind else len(text)]


def number_of(repository: Repository, declared: Declared) -> int:
    """The number that is declared there."""
    path = declared.path(repository)
    where = f"{declared.item} of {declared.place}"
    if not path.is_file():
        raise Absent(f"{where}: there is no such file")
    form = declared.form or "= {}"
    pattern = re.escape(form).replace(re.escape("{}"), NUMBER)
    found = {int(number) for number in re.findall(pattern, text_of(declared, path.read_text()))}
    if len(found) != 1:
        raise Absent(f"{where}: there is {'no one number' if found else 'no number'} as {form}")
    return found.pop()
