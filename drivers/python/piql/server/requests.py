"""What a client asks for: a statement, with its first word, or a copy."""

import os
import re

from ..frames import BACKUP, LIMITED, LIMITS, STATEMENT, FrameError
from ..scripts import STATEMENT_BYTES, first_token, is_one_piece

WORD = re.compile(rb"[A-Za-z_][A-Za-z0-9_]*+")
READING = frozenset({"SELECT", "RUN", "READ", "EXPLAIN", "SHOW"})
WRITING = frozenset({"INSERT", "UPDATE", "DELETE", "BATCH"})
DEFINING = frozenset({"CREATE", "ALTER", "PREPARE"})
COPY, OTHER = "COPY", "OTHER"
KINDS = READING | WRITING | DEFINING | {COPY}
# At which word the name stands that a statement is about, from 0.
NAME_AT = {"RUN": 1, "READ": 1, "UPDATE": 1, "PREPARE": 1, "INSERT": 2, "DELETE": 2, "CREATE": 2, "ALTER": 2}


def first_words(text: bytes, count: int) -> list[str]:
    """The first words of a statement in small letters, as far as nothing else stands between them."""
    found, at = [], 0
    while len(found) < count:
        at += first_token(text[at:])
        word = WORD.match(text, at)
        if word is None:
            break
        found.append(word[0].decode().lower())
        at = word.end()
    return found


def word_of(kind: bytes, text: bytes) -> str:
    """The first word of a statement. What is none is a FrameError."""
    if kind != STATEMENT or len(text) > STATEMENT_BYTES or not is_one_piece(text):
        raise FrameError("a frame has one whole statement, or the name of a copy")
    found = WORD.match(text, first_token(text))
    word = found[0].decode().upper() if found else ""
    return word if word in KINDS and word != COPY else OTHER


class Request:
    """One frame that was taken: its first word in capitals, or COPY or OTHER, and its text."""

    def __init__(self, kind: bytes, text: bytes) -> None:
        # For how many seconds its client waits, and over how many rows it allows an index.
        self.limit: float | None = None
        self.rows = 0
        if kind == LIMITED and len(text) >= LIMITS.size:
            milliseconds, self.rows = LIMITS.unpack_from(text)
            self.limit = milliseconds / 1000 or None
            kind, text = STATEMENT, text[LIMITS.size :]
        self.text = text
        self.is_copy = kind == BACKUP
        self.word = COPY if self.is_copy else word_of(kind, text)

    @property
    def reads(self) -> bool:
        """Whether it changes nothing."""
        return self.word in READING

    def name(self) -> str:
        """The name that the statement is about, or nothing. It is what a client wrote, and no store may have it."""
        at = NAME_AT.get(self.word, -1)
        return "".join(first_words(self.text, at + 1)[at : at + 1])

    def path(self) -> str:
        """The path of a copy. One that is none is a ValueError."""
        path = self.text.decode()
        if "\0" in path or not os.path.isabs(path):
            raise ValueError("a copy is named by its whole path, in UTF-8 and without a NUL")
        return path
