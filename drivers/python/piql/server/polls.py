"""What is polled of which descriptor, and what wakes the thread that polls."""

import contextlib
import os
import select

WAKES = 4096


class Polls:
    """An epoll with a pipe to wake it, which a signal or another thread writes to."""

    def __init__(self) -> None:
        self.epoll = select.epoll()
        self.masks: dict[int, int] = {}
        self.wake_read, self.wake_write = os.pipe2(os.O_NONBLOCK | os.O_CLOEXEC)
        self.epoll.register(self.wake_read, select.EPOLLIN)

    def wait(self, seconds: float) -> list[int]:
        """The descriptors at which something has come within so many seconds; none where it was woken."""
        found = [descriptor for descriptor, _ in self.epoll.poll(seconds)]
        if self.wake_read in found:
            found.remove(self.wake_read)
            os.read(self.wake_read, WAKES)
        return found

    def wake(self) -> None:
        """Ends the wait of the other thread."""
        # A pipe that is full wakes it too.
        with contextlib.suppress(OSError):
            os.write(self.wake_write, b"\0")

    def set(self, descriptor: int, mask: int) -> None:
        """Has a descriptor polled for this from now on; for 0 not at all."""
        before = self.masks.get(descriptor, 0)
        if mask == before:
            return
        if not before:
            self.epoll.register(descriptor, mask)
        elif mask:
            self.epoll.modify(descriptor, mask)
        else:
            self.epoll.unregister(descriptor)
        self.masks[descriptor] = mask

    def forget(self, descriptor: int) -> None:
        """Has a descriptor polled no more, which is about to be closed or is so already."""
        if self.masks.pop(descriptor, 0):
            with contextlib.suppress(OSError):
                self.epoll.unregister(descriptor)

    def close(self) -> None:
        """Polls no more."""
        self.epoll.close()
        os.close(self.wake_read)
        os.close(self.wake_write)
