"""The frames that a client and piql-serve exchange over a socket.

A frame is four bytes with the length of what follows, the higher byte first; then one byte that says what it is; then
its text. A client sends STATEMENT, LIMITED, BACKUP and STATUS, and the server answers each with one frame; that of
STATUS is of the same kind. HELLO is the server's first. LIMITED is a statement behind two numbers of four bytes each:
for how many milliseconds its client waits for it, and over how many rows it allows an index; for 0 it says nothing.
MANY has the same two numbers, for all its statements together, and then each of these behind its length. The server
answers each by one frame, in their order, or by UNBEGUN the first of those that weren't begun, and so all behind it.
"""

import socket
import struct
from collections.abc import Sequence

from .lots import LOT_BYTES, LOT_STATEMENTS, SIZE
from .scripts import STATEMENT_BYTES

HEAD = struct.Struct("!I")
LIMITS = struct.Struct("!II")
STATEMENT, LIMITED, MANY, BACKUP, STATUS = b"S", b"L", b"M", b"B", b"I"
HELLO, REPORT, COPIED, ENDED, UNBEGUN, BROKEN = b"H", b"R", b"C", b"E", b"N", b"X"
GREETING = b"piql 1"
# The most bytes that a client's frame of one statement has behind its length.
REQUEST_BYTES = 1 + LIMITS.size + STATEMENT_BYTES
CHUNK = 1 << 20


class FrameError(Exception):
    """A frame that is none, or too long."""


class Gone(Exception):
    """The other side went away; `begun` says whether part of a frame was there."""

    def __init__(self, begun: bool) -> None:
        super().__init__("the other side went away" + (" within a frame" if begun else ""))
        self.begun = begun


def write_frame(to: socket.socket, kind: bytes, text: bytes) -> None:
    """Sends a frame."""
    to.sendall(HEAD.pack(len(text) + 1) + kind + text)


def read_exactly(source: socket.socket, length: int, begun: bool) -> bytes:
    """So many bytes."""
    parts: list[bytes] = []
    left = length
    while left:
        part = source.recv(min(left, CHUNK))
        if not part:
            raise Gone(begun or bool(parts))
        parts.append(part)
        left -= len(part)
    return b"".join(parts)


def read_frame(source: socket.socket, most: int | None = None) -> tuple[bytes, bytes]:
    """A frame's kind and text. One of no bytes, or of more than `most`, is refused before it is read."""
    (length,) = HEAD.unpack(read_exactly(source, HEAD.size, False))
    if length == 0 or (most is not None and length > most):
        raise FrameError(f"a frame of {length} bytes; it has 1 to {most}" if most else "a frame without a kind")
    text = read_exactly(source, length, True)
    return text[:1], text[1:]


def many_text(limit: int, rows: int, statements: Sequence[bytes]) -> bytes:
    """The text of a frame of several statements, with its two numbers."""
    return LIMITS.pack(limit, rows) + b"".join(SIZE.pack(len(it)) + it for it in statements)


def statements_in(text: bytes) -> list[bytes]:
    """The statements of such a frame, behind its numbers; whether they are such isn't looked at.

    A text that has none, too many, half of one or one that is too long is refused.
    """
    found, at = [], LIMITS.size
    while at < len(text) and len(found) <= LOT_STATEMENTS:
        begin = at + SIZE.size
        (length,) = SIZE.unpack(text[at:begin].rjust(SIZE.size, b"\xff"))
        at = begin + length
        found.append(text[begin:at])
    is_sound = at == len(text) < LOT_BYTES and max(map(len, found), default=0) <= STATEMENT_BYTES
    if not is_sound or not 0 < len(found) <= LOT_STATEMENTS:
        raise FrameError(f"a frame of several statements has 1 to {LOT_STATEMENTS:,} whole ones")
    return found
