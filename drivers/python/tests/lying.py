"""Servers for tests that stand for a member of etcd, or for a server of PostgreSQL, and answer as neither does."""

import contextlib
import socket
import threading
import time
from collections.abc import Callable
from types import TracebackType

# What a connection is answered, by what a client sent first.
Answer = Callable[[socket.socket, bytes], None]


class LyingServer:
    """A server on loopback, each of whose connections is answered by a function, in a thread of its own."""

    def __init__(self, answer: Answer) -> None:
        self.answer = answer
        self.listener = socket.create_server(("127.0.0.1", 0))
        self.port: int = self.listener.getsockname()[1]
        self.sockets: list[socket.socket] = []
        threading.Thread(target=self.run, daemon=True).start()

    def __enter__(self) -> "LyingServer":
        return self

    def __exit__(self, kind: type[BaseException] | None, error: BaseException | None, at: TracebackType | None) -> None:
        self.close()

    def run(self) -> None:
        """Takes connections until the end."""
        with contextlib.suppress(OSError):
            while True:
                made, _ = self.listener.accept()
                self.sockets.append(made)
                threading.Thread(target=self.serve, args=(made,), daemon=True).start()

    def serve(self, made: socket.socket) -> None:
        """Answers one connection, request after request."""
        with contextlib.suppress(OSError):
            while data := made.recv(1 << 16):
                self.answer(made, data)

    def close(self) -> None:
        """Ends it."""
        for made in [self.listener, *self.sockets]:
            # A thread that waits for the other side waits no more.
            with contextlib.suppress(OSError):
                made.shutdown(socket.SHUT_RDWR)
            made.close()


def telling(body: bytes, status: str = "200 OK") -> Answer:
    """Answers each request of HTTP by a body."""
    head = f"HTTP/1.1 {status}\r\nContent-Type: application/json\r\nContent-Length: {len(body)}\r\n\r\n"

    def answer(made: socket.socket, _: bytes) -> None:
        made.sendall(head.encode() + body)

    return answer


def dribbling(text: bytes, pause: float) -> Answer:
    """Answers by one byte after the other."""

    def answer(made: socket.socket, _: bytes) -> None:
        for byte in text:
            made.sendall(bytes([byte]))
            time.sleep(pause)

    return answer


def silent(made: socket.socket, _: bytes) -> None:
    """Answers nothing."""
