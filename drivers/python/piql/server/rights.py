"""What the clients of a socket may ask for, and which users may connect to it."""

import re
from enum import Enum
from typing import NamedTuple

from .requests import COPY, DEFINING, OTHER, READING, WRITING

OWNER_ONLY = 0o600
# Whoever connects needs the right to write to a socket.
PLACE = re.compile(r"(?P<path>.+):(?P<right>all|write|run|read)(?::(?P<mode>0?6[0246][0246]))?", re.DOTALL)
REFUSED = "this socket is for {right}, and takes {words}; the statement wasn't made"


class Right(Enum):
    """What is taken. What begins with no word that the server knows could define something in a later version."""

    ALL = "all"
    WRITE = "write"
    RUN = "run"
    READ = "read"

    def __init__(self, word: str) -> None:
        more = {"all": WRITING | DEFINING | {OTHER, COPY}, "write": WRITING | DEFINING | {OTHER}, "run": WRITING}
        self.takes = READING | more.get(word, frozenset())

    def refusal(self) -> str:
        """What a client is told whose statement isn't taken."""
        words = "all but copies" if self is Right.WRITE else ", ".join(sorted(self.takes))
        return REFUSED.format(right=self.value, words=words)


class Place(NamedTuple):
    """Where a socket is, what its clients may, and the mode that says who may connect."""

    path: str
    right: Right = Right.ALL
    mode: int = OWNER_ONLY

    def __str__(self) -> str:
        return f"{self.path}:{self.right.value}:{self.mode:o}"


def read_place(word: str) -> Place:
    """The place that a word PATH:RIGHT or PATH:RIGHT:MODE names. One that names none is a ValueError."""
    found = PLACE.fullmatch(word)
    if found is None:
        raise ValueError(f"a socket is PATH:all, write, run or read, with :MODE of three digits as 660, and not {word}")
    return Place(found["path"], Right(found["right"]), int(found["mode"] or "600", 8))
