"""bounds.lock: a file with the bound of each query, so that a test fails where a page gets dearer."""

import os
import re
from pathlib import Path

from .connection import Connection
from .errors import OperationalError, ProgrammingError
from .plain import plain_path
from .reports import Work

HEAD = "# Each query's bound: its name, operations, entries. `python -m piql bounds FILE --write PATH` writes this.\n"
LINE = re.compile(r"(\w+)\s+([0-9]{1,9})\s+([0-9]{1,9})\s*")


class BoundsRose(AssertionError):
    """A query is dearer than bounds.lock says, or isn't in it."""


def write_bounds(connection: Connection, path: str | os.PathLike[str]) -> dict[str, Work]:
    """Writes the bound of each query of the store, by their names; what was written."""
    place, bounds = plain_path(path, "the list of bounds"), connection.bounds()
    text = HEAD + "".join(f"{name} {bounds[name]}\n" for name in sorted(bounds))
    try:
        Path(place).write_text(text, encoding="utf-8")
    except OSError as error:
        raise OperationalError(f"{place} can't be written: {error.strerror}") from error
    return bounds


def read_bounds(path: str | os.PathLike[str]) -> dict[str, Work]:
    """The bounds that such a file has."""
    place = plain_path(path, "the list of bounds")
    try:
        text = Path(place).read_text(encoding="utf-8")
    except (OSError, UnicodeDecodeError) as error:
        raise OperationalError(f"{place} can't be read: {getattr(error, 'strerror', 'it is no UTF-8')}") from error
    lines = [(number, line) for number, line in enumerate(text.splitlines(), 1) if line and not line.startswith("#")]
    return dict(read_bound(line, f"{place}, line {number}") for number, line in lines)


def read_bound(line: str, where: str) -> tuple[str, Work]:
    """A query's name and its bound."""
    found = LINE.fullmatch(line)
    if found is None:
        raise ProgrammingError(f"{where} has no name of a query with two numbers, operations and entries")
    return found[1], Work(int(found[2]), int(found[3]))


def check_bounds(connection: Connection, path: str | os.PathLike[str]) -> None:
    """Fails where a query of the store has more operations or more entries than the file says, or isn't in it."""
    locked = read_bounds(path)
    risen = []
    for name, bound in connection.bounds().items():
        before = locked.get(name)
        if before is None:
            risen.append(f"{name} {bound}: it isn't in {path}")
        elif bound.operations > before.operations or bound.entries > before.entries:
            risen.append(f"{name} {bound}: it was {before}")
    if risen:
        raise BoundsRose("; ".join(risen))
