"""The server's log: lines of `key=value` on standard error.

No value, no literal and no key of a row stands in a line: what writes one has only words and numbers of the server's
own, what the command line gave, and the names of definitions that the store has. A reader that doesn't keep up holds up
nothing: what can't be written at once is left out, and counted.
"""

import json
import os
import re
import select
import threading
import time

LEVELS = ("error", "warning", "info", "debug")
PLAIN = re.compile(r"[A-Za-z0-9_./:+-]+")
# A pipe takes so many bytes whole or not at all.
LINE_BYTES = 4096
VALUE_CHARACTERS = 500
# How many lines of one event there may be within a second.
MOST_A_SECOND = 20

Field = str | int | float | None


def shown(value: Field) -> str:
    """A value as a line has it: quoted as JSON does, where it isn't one plain word or number."""
    if isinstance(value, float):
        return f"{value:.3f}"
    text = str(value)[:VALUE_CHARACTERS]
    return text if PLAIN.fullmatch(text) else json.dumps(text)


class Log:
    """Lines of one level and those above it."""

    def __init__(self, level: str, descriptor: int = 2) -> None:
        self.most, self.descriptor = LEVELS.index(level), descriptor
        self.ready = select.poll()
        self.ready.register(descriptor, select.POLLOUT)
        self.guard = threading.Lock()
        self.second = 0
        # How often each event came within the second, and how many of its lines were left out since its last one.
        self.came: dict[str, int] = {}
        self.left_out: dict[str, int] = {}

    def error(self, event: str, **fields: Field) -> None:
        """What somebody has to look at now."""
        self.write(0, event, fields)

    def warning(self, event: str, **fields: Field) -> None:
        """What somebody should know of."""
        self.write(1, event, fields)

    def info(self, event: str, **fields: Field) -> None:
        """What a server does in its life."""
        self.write(2, event, fields)

    def debug(self, event: str, **fields: Field) -> None:
        """What each client does."""
        self.write(3, event, fields)

    def write(self, level: int, event: str, fields: dict[str, Field]) -> None:
        """Writes a line, from any thread. A field that is None is left out."""
        if level > self.most:
            return
        with self.guard:
            if self.is_too_often(event) or not self.ready.poll(0):
                self.left_out[event] = self.left_out.get(event, 0) + 1
                return
            head = {"time": time.strftime("%Y-%m-%dT%H:%M:%SZ", time.gmtime()), "level": LEVELS[level], "event": event}
            tail = {"left_out": self.left_out.pop(event, None)}
            words = [f"{key}={shown(value)}" for key, value in (head | fields | tail).items() if value is not None]
            line = " ".join(words).encode(errors="backslashreplace")
            try:
                os.write(self.descriptor, line[: LINE_BYTES - 1] + b"\n")
            except OSError:
                # Nobody reads any more, and there is nobody to tell.
                self.left_out[event] = 1

    def is_too_often(self, event: str) -> bool:
        """Whether the event came too often within this second."""
        second = int(time.monotonic())
        if second != self.second:
            self.second = second
            self.came.clear()
        self.came[event] = self.came.get(event, 0) + 1
        return self.came[event] > MOST_A_SECOND
