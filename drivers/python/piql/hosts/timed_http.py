"""Connections of HTTP of which a whole request ends by a time, however slowly the other side sends."""

import http.client
import io
import socket
import time

from ..interrupts import own


class HttpSocket:
    """What http.client uses of a socket. Each send and receive has the time that is left up to `until`."""

    def __init__(self, at: tuple[str, int], until: float) -> None:
        self.until = until
        self.socket = self.connected(at)
        self.socket.setsockopt(socket.IPPROTO_TCP, socket.TCP_NODELAY, 1)
        own(self)

    def connected(self, at: tuple[str, int]) -> socket.socket:
        """A socket that is connected to the first address of a host that answers."""
        why: OSError = TimeoutError("the host has no address")
        for family, kind, protocol, _, address in socket.getaddrinfo(*at, type=socket.SOCK_STREAM):
            made = socket.socket(family, kind, protocol)
            try:
                made.settimeout(self.left())
                made.connect(address)
                return made
            except OSError as error:
                made.close()
                why = error
        raise why

    def left(self) -> float:
        """The seconds that are left, which are some."""
        left = self.until - time.monotonic()
        if left <= 0:
            raise TimeoutError("it took too long")
        return left

    def sendall(self, data: bytes) -> None:
        """Sends all of it."""
        self.socket.settimeout(self.left())
        self.socket.sendall(data)

    def receive(self, into: memoryview) -> int:
        """Receives some bytes; how many."""
        self.socket.settimeout(self.left())
        return self.socket.recv_into(into)

    def makefile(self, mode: str) -> io.BufferedReader:
        """What is received, as a file to read."""
        return io.BufferedReader(Received(self))

    def close(self) -> None:
        """Closes the socket."""
        self.socket.close()

    # In a child that was forked: its end alone.
    let_go = close


class Received(io.RawIOBase):
    """What a socket receives."""

    def __init__(self, source: HttpSocket) -> None:
        self.source = source

    def readable(self) -> bool:
        return True

    def readinto(self, into: memoryview) -> int:  # type: ignore[override]
        return self.source.receive(into)


class TimedConnection(http.client.HTTPConnection):
    """A connection whose request at hand has to end by `until`, a time of the monotonic clock."""

    until = 0.0

    def connect(self) -> None:
        """Connects."""
        self.sock = HttpSocket((self.host, self.port), self.until)  # type: ignore[assignment]

    def end_by(self, until: float) -> None:
        """Says by when the next request has to end."""
        self.until = until
        if self.sock is not None:
            self.sock.until = until  # type: ignore[attr-defined]
