#!/usr/bin/env python3
"""Stands for an engine in the tests of what reaches its pipe: keeps each byte, and answers each statement as accepted.

    PIQL_RECORD=FILE recording_engine.py [STORE] run

With PIQL_RECORDED=PROGRAM this program answers, behind a record of what it is sent. With PIQL_LIE the second statement
is answered by this text, in which %d is its number, and PIQL_LATE comes behind it after a moment.
"""

import contextlib
import os
import subprocess
import sys
import time
from collections.abc import Callable

NUMBERS = "bound 1 1 used 1 0"
BLANKS = b" \t\r\n"


class Cutter:
    """Cuts a script at each `;` outside of texts and comments, byte by byte, as docs/LANGUAGE.md has it."""

    def __init__(self) -> None:
        self.piece = bytearray()
        self.is_text = self.is_comment = False
        # Whether the piece has only blanks and comments so far, and whether it had so before its last letter.
        self.is_blank = self.was_blank = True

    def take(self, byte: int) -> bytes | None:
        """Takes a byte; the piece that it ends, if that isn't blank."""
        letter = bytes([byte])
        if letter == b";" and not self.is_text and not self.is_comment:
            whole, is_blank = bytes(self.piece) + b";", self.is_blank
            self.piece.clear()
            self.is_blank = self.was_blank = True
            return None if is_blank else whole
        self.look(letter)
        self.piece += letter
        return None

    def look(self, letter: bytes) -> None:
        """Notes what a letter begins or ends."""
        before, self.was_blank = self.was_blank, self.is_blank
        if self.is_comment:
            self.is_comment = letter != b"\n"
        elif letter == b"'":
            self.is_text, self.is_blank = not self.is_text, False
        elif letter == b"-" == self.piece[-1:] and not self.is_text:
            self.is_comment, self.is_blank = True, before
        elif letter not in BLANKS:
            self.is_blank = False


def answer(piece: bytes, number: int) -> str:
    """The report of a statement that finds nothing."""
    word = piece.split(None, 1)[0].upper()
    if word == b"READ":
        return f"row 0\n{number} ok rows 1 {NUMBERS}\n"
    has_rows = word.startswith(b"RUN") or word == b"SELECT"
    return f"{number} ok rows 0 {NUMBERS}\n" if has_rows else f"{number} ok {NUMBERS}\n"


def tell(text: str) -> None:
    """Writes at once."""
    sys.stdout.buffer.write(text.encode("utf-8", "surrogateescape"))
    sys.stdout.buffer.flush()


def report(piece: bytes, number: int) -> None:
    """Writes the report of a statement, or the lie in its place."""
    lie, late = os.environ.get("PIQL_LIE"), os.environ.get("PIQL_LATE")
    if number != 2 or lie is None:
        tell(answer(piece, number))
        return
    tell(lie.replace("%d", str(number)))
    if late is not None:
        time.sleep(0.1)
        tell(late)


def record(take: Callable[[bytes], None]) -> None:
    """Keeps what comes, and hands it on."""
    with open(os.environ["PIQL_RECORD"], "ab", buffering=0) as kept:
        while part := os.read(0, 1 << 16):
            kept.write(part)
            take(part)


def hand_on(program: str) -> int:
    """Hands all on to a program, which writes its reports itself; its status."""
    with subprocess.Popen([program, *sys.argv[1:]], stdin=subprocess.PIPE, bufsize=0) as engine:
        assert engine.stdin is not None
        record(engine.stdin.write)
        engine.stdin.close()
        return engine.wait()


def stand_in() -> int:
    """Answers each statement."""
    with contextlib.suppress(FileNotFoundError):
        for store in sys.argv[1:-1]:
            open(store, "ab").close()
    tell("open defs 0 bound 2 257 used 2 0\n")
    cutter, numbers = Cutter(), iter(range(1, 10**9))

    def take(part: bytes) -> None:
        for piece in filter(None, map(cutter.take, part)):
            report(piece, next(numbers))

    record(take)
    return 0


if __name__ == "__main__":
    real = os.environ.get("PIQL_RECORDED")
    try:
        sys.exit(hand_on(real) if real else stand_in())
    except BrokenPipeError:
        os._exit(4)
