"""One client of a server: what it has sent that is no whole frame yet, and what it hasn't taken of its answers."""

import contextlib
import itertools
import json
import select
import socket
import struct
import time
from collections.abc import Sequence

from ..frames import ENDED, HEAD, MANY, REQUEST_BYTES, UNBEGUN, FrameError
from ..lots import ENDED_BEFORE, LOT_BYTES
from .lots import Lot
from .requests import Request
from .rights import Right

Answer = tuple[bytes, bytes]
PEER = struct.Struct("iII")
# What is read at once, and what a client may send ahead of its answers; a frame of several statements may be longer.
CHUNK = HEAD.size + REQUEST_BYTES
# For how many seconds a client may be in the middle of a frame, or take nothing of an answer.
FRAME_SECONDS = 10.0
# The clients of a server are counted, for its log.
NUMBERS = itertools.count(1)


def ended_frame(text: str, status: int | None = None) -> Answer:
    """The frame that says what ended a statement without a report."""
    return ENDED, json.dumps({"status": status, "text": text}).encode()


def user_of(client: socket.socket) -> int:
    """The user at the other side."""
    user: int = PEER.unpack(client.getsockopt(socket.SOL_SOCKET, socket.SO_PEERCRED, PEER.size))[1]
    return user


class Ticket:
    """A request in its turn. Whoever tells the client what became of it says so here, and nobody tells it twice."""

    def __init__(self, client: "Client", request: Request | Lot, asked: float) -> None:
        self.client, self.request, self.asked = client, request, asked
        self.is_told = self.is_killed = False
        # Whether the next turn waits until the client has taken the answers of the last one.
        self.is_parked = False
        # Why the client is left that has sent it.
        self.why = ""
        # When it was begun.
        self.begun: float | None = None

    def since(self) -> float:
        """When its last step was: it was begun, or it was asked for."""
        return self.asked if self.begun is None else self.begun

    def answers(self, answer: Answer) -> list[Answer]:
        """The frames by which an answer is told; of several statements to those at hand, and to those behind them."""
        lot = self.request
        if not isinstance(lot, Lot) or answer[0] != ENDED:
            return [answer]
        if self.begun is None:
            return [(UNBEGUN, json.loads(answer[1])["text"].encode())]
        return [answer] * lot.taken + [(UNBEGUN, ENDED_BEFORE.encode())] * bool(lot.left())

    def wait(self, now: float) -> float:
        """For how many seconds it waited for its turn."""
        return (now if self.begun is None else self.begun) - self.asked


class Client:
    """A connected socket, which never blocks. It has at most one ticket: the next frame waits for its answers."""

    def __init__(self, made: socket.socket, now: float, right: Right) -> None:
        made.setblocking(False)
        self.right = right
        self.socket, self.number = made, next(NUMBERS)
        self.received, self.unsent = bytearray(), bytearray()
        self.ticket: Ticket | None = None
        # Since when it is silent, in the middle of its frame, or takes nothing.
        self.since = now
        # It sends no more, or nothing that it sends is taken; it is left once its answers are out.
        self.is_ending = False
        # Nobody is at its other side, or it was left.
        self.is_lost = self.is_closed = False

    def receive(self) -> None:
        """Takes what has come."""
        try:
            part = self.socket.recv(CHUNK)
        except BlockingIOError:
            return
        except OSError:
            part = b""
        if not part:
            self.is_ending = True
        elif not self.received:
            self.since = time.monotonic()
        self.received += part

    def next_frame(self) -> tuple[bytes, bytes] | None:
        """The kind and the text of a frame that is there whole. One of no bytes, or of too many, is refused."""
        if len(self.received) < HEAD.size:
            return None
        (length,) = HEAD.unpack_from(self.received)
        if not 1 <= length <= (LOT_BYTES if self.has_many() else REQUEST_BYTES):
            raise FrameError(f"a frame of {length} bytes; it has 1 to {REQUEST_BYTES}, or with M to {LOT_BYTES}")
        end = HEAD.size + length
        if len(self.received) < end:
            return None
        frame = bytes(self.received[HEAD.size : end])
        del self.received[:end]
        return frame[:1], frame[1:]

    def has_many(self) -> bool:
        """Whether the next frame is one of several statements, or may be, as its kind hasn't come yet."""
        return self.received[HEAD.size : HEAD.size + 1] in (MANY, b"")

    def room(self) -> int:
        """How much may come before its next frame is taken; little while it has a ticket."""
        if self.ticket is not None or len(self.received) < HEAD.size or not self.has_many():
            return CHUNK
        return max(CHUNK, HEAD.size + min(HEAD.unpack_from(self.received)[0], LOT_BYTES))

    def push(self, kind: bytes, text: bytes) -> None:
        """Sends a frame, as far as the client takes it now. The rest is kept."""
        self.push_all([(kind, text)])

    def push_all(self, frames: Sequence[Answer]) -> None:
        """Sends several frames at once."""
        data = b"".join(HEAD.pack(len(text) + 1) + kind + text for kind, text in frames)
        self.since = time.monotonic()
        sent = 0 if self.unsent else self.sent(data)
        if sent < len(data):
            self.unsent += data[sent:]

    def flush(self) -> None:
        """Sends on."""
        sent = self.sent(self.unsent)
        if sent:
            self.since = time.monotonic()
            del self.unsent[:sent]

    def sent(self, data: bytes | bytearray) -> int:
        """How much of it is sent. A client that went away takes all, since nobody else wants it."""
        if self.is_closed:
            return len(data)
        try:
            return self.socket.send(data)
        except BlockingIOError:
            return 0
        except OSError:
            self.is_ending = self.is_lost = True
            return len(data)

    def is_ready(self) -> bool:
        """Whether its next frame may be taken."""
        return self.ticket is None and not self.unsent

    def is_idle(self) -> bool:
        """Whether nothing is made for it: it has asked for nothing, or has to take what it was answered."""
        return self.ticket is None or self.ticket.is_parked

    def wanted(self) -> int:
        """What its socket is polled for. One that sends far ahead of its answers isn't read meanwhile."""
        if self.unsent:
            return select.EPOLLOUT
        return 0 if self.is_ending or len(self.received) >= self.room() else select.EPOLLIN

    def overdue(self, now: float, idle: float) -> float:
        """The seconds for which it was silent, or stood still within a frame or an answer, if these are too many."""
        limit = min(FRAME_SECONDS, idle) if self.unsent or self.received else idle
        return limit if now - self.since > limit else 0.0

    def hang_up(self) -> None:
        """Has the client's next frame fail before a byte of it is taken. What it sent before can still be read."""
        with contextlib.suppress(OSError):
            self.socket.shutdown(socket.SHUT_RD)

    def close(self) -> None:
        """Leaves the client."""
        self.is_closed = self.is_lost = self.is_ending = True
        self.socket.close()
