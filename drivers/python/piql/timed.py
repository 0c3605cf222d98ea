"""A Unix socket whose waits have an end, and whose own errors are told from what a signal's handler raises."""

import errno
import os
import select
import socket
import time

from .interrupts import is_of_call, own


class Broken(Exception):
    """The socket itself failed: nobody is at its other side any more. `sent` says whether part of a frame was taken."""

    def __init__(self, why: str, sent: bool) -> None:
        super().__init__(why)
        self.sent = sent


class Late(Exception):
    """The time is over."""


class TimedSocket:
    """A connected socket. `until` is when each wait is over, by time.monotonic(); None is without an end."""

    def __init__(self, path: str, until: float | None) -> None:
        self.until = until
        self.socket = socket.socket(socket.AF_UNIX, socket.SOCK_STREAM)
        own(self)
        self.socket.setblocking(False)
        self.ready, self.writable = select.poll(), select.poll()
        self.ready.register(self.socket, select.POLLIN)
        self.writable.register(self.socket, select.POLLOUT)
        try:
            failed = self.socket.connect_ex(path)
        except OSError as error:
            self.socket.close()
            if not is_of_call(error):
                raise
            raise Broken(error.strerror or str(error), False) from error
        if failed:
            self.socket.close()
            # A server whose queue of clients is full has no room yet.
            why = "its queue is full" if failed == errno.EAGAIN else os.strerror(failed)
            raise Broken(why, False)

    def wait(self, on: select.poll) -> None:
        """Waits until something can be done."""
        left = None if self.until is None else max(0.0, self.until - time.monotonic()) * 1000
        if not on.poll(left):
            raise Late

    def sendall(self, data: bytes) -> None:
        """Sends all of it."""
        done = 0
        while done < len(data):
            if done:
                self.wait(self.writable)
            done += self.send_some(data[done:], bool(done))

    def send_some(self, data: bytes, is_begun: bool) -> int:
        """Sends what there is room for; how much that is."""
        try:
            return self.socket.send(data)
        except OSError as error:
            if not is_of_call(error):
                raise
            if not isinstance(error, BlockingIOError):
                raise Broken(error.strerror, is_begun) from error
        self.wait(self.writable)
        return 0

    def recv(self, most: int) -> bytes:
        """What comes next, at most so much; nothing where the other side has gone."""
        while True:
            self.wait(self.ready)
            part = self.receive_some(most)
            if part is not None:
                return part

    def receive_some(self, most: int) -> bytes | None:
        """What is there, or None."""
        try:
            return self.socket.recv(most)
        except OSError as error:
            if not is_of_call(error):
                raise
            if isinstance(error, BlockingIOError):
                return None
            raise Broken(error.strerror, True) from error

    def let_go(self) -> None:
        """Closes the socket."""
        self.socket.close()
