"""A prompt at a terminal of its own, whose keys reach it as somebody's do."""

import array
import contextlib
import fcntl
import os
import pty
import select
import signal
import termios
import time
import unittest
from collections.abc import Callable, Iterator
from pathlib import Path

from helpers import TOP

INTERRUPT = b"\3"
# For how many seconds a test waits for what has to come; the machine may do much else.
LONG = 60.0


def wait_for(holds: Callable[[], object], what: str) -> None:
    """Waits until something holds."""
    until = time.monotonic() + LONG
    while not holds():
        if time.monotonic() > until:
            raise AssertionError(f"it didn't come to this: {what}")
        time.sleep(0.0005)


def children(process: int) -> list[int]:
    """The processes that a process has begun."""
    return [int(it) for it in Path(f"/proc/{process}/task/{process}/children").read_text().split()]


def hold(process: int) -> None:
    """Has a process stand still. One that is only about to would still read what comes."""
    os.kill(process, signal.SIGSTOP)
    wait_for(lambda: Path(f"/proc/{process}/stat").read_text().rpartition(")")[2].split()[0] == "T", "it stands still")


def waiting_bytes(process: int) -> int:
    """How many bytes a process hasn't read of its standard input, which is a pipe."""
    with open(f"/proc/{process}/fd/0", "rb", buffering=0) as pipe:
        found = array.array("i", [0])
        fcntl.ioctl(pipe, termios.FIONREAD, found)
        return found[0]


def is_interrupt_pending(process: int) -> bool:
    """Whether a process has an interrupt before it that it holds back."""
    lines = Path(f"/proc/{process}/status").read_text().splitlines()
    pending = next(line.split()[1] for line in lines if line.startswith("ShdPnd:"))
    return bool(int(pending, 16) & 1 << signal.SIGINT - 1)


class Terminal:
    """The program `piql-shell` over a store."""

    def __init__(self, case: unittest.TestCase, home: Path, *words: str) -> None:
        self.process, self.keys = pty.fork()
        if self.process == 0:
            os.environ.update(HOME=str(home), TERM="dumb")
            os.execv(TOP / "bin/piql-shell", ["piql-shell", *words])
        self.said = b""
        case.addCleanup(self.end)
        self.until("piql> ")

    def end(self) -> None:
        """Ends the program, and its engine with it."""
        with contextlib.suppress(ProcessLookupError, FileNotFoundError):
            for child in children(self.process):
                os.kill(child, signal.SIGKILL)
            os.kill(self.process, signal.SIGKILL)
        os.waitpid(self.process, 0)
        os.close(self.keys)

    def until(self, text: str) -> str:
        """What is said up to a text, with it."""
        end, until = text.encode(), time.monotonic() + LONG
        while end not in self.said:
            if not select.select([self.keys], [], [], max(0.0, until - time.monotonic()))[0]:
                raise AssertionError(f"{text!r} isn't said, but {self.said!r}")
            self.said += os.read(self.keys, 4096)
        said, _, self.said = self.said.partition(end)
        return (said + end).decode().replace("\r\n", "\n")

    def type(self, line: str) -> None:
        """Types a line. What is said before isn't waited for any more."""
        self.said = b""
        os.write(self.keys, line.encode() + b"\n")

    def ask(self, line: str) -> str:
        """What is said of a line up to the next prompt."""
        self.type(line)
        return self.until("piql> ")

    def engine(self) -> int:
        """The engine of the prompt. What is only forked is none yet."""
        wait_for(lambda: len(list(self.engines())) == 1, "the prompt has one engine")
        return next(self.engines())

    def engines(self) -> Iterator[int]:
        """The children that run another program than the prompt does."""
        own = os.readlink(f"/proc/{self.process}/exe")
        for child in children(self.process):
            with contextlib.suppress(FileNotFoundError):
                if os.readlink(f"/proc/{child}/exe") != own:
                    yield child

    def interrupt(self) -> str:
        """What is said of an interrupt, up to the next prompt."""
        os.write(self.keys, INTERRUPT)
        return self.until("piql> ")

    def send_unread(self, engine: int, line: str) -> None:
        """Types a statement that is sent to an engine which stands still."""
        hold(engine)
        self.type(line)
        wait_for(lambda: waiting_bytes(engine), "the statement was sent")

    def interrupt_unread(self, line: str) -> str:
        """What is said of an interrupt that comes when a statement was sent, and its engine hasn't read it."""
        self.send_unread(self.engine(), line)
        return self.interrupt()
