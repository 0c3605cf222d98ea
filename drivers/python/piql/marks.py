"""How far a load came: a small file beside the store, which a second run of the same command reads."""

import hashlib
import os
import re
from pathlib import Path
from urllib.parse import unquote

from .errors import OperationalError
from .hosts.passwords import SECRET, cut_user, cut_words
from .hosts.urls import is_url, options_of

# The last number is missing in a mark of before, whose load sent one record at a time.
CONTENT = re.compile(rb"([0-9]{20}) ([0-9]{20}) ([0-9]{10})(?: ([0-9]{3}))?\n")
DIGITS = 16


def place_of(url: str) -> str:
    """What a URL says of where a store is, without its secrets and without seconds."""
    front, _, rest = cut_user(options_of(url)[0])
    whole = front.removesuffix(":") + rest
    words = [name + value for name, value in cut_words(whole) if not SECRET.search(unquote(name))]
    return f"{whole.partition('?')[0]}?{'&'.join(words)}"


def mark_path(store: str, table: str) -> str:
    """The file that keeps how far a load came. No part of a URL stands in its name, for that may have a password."""
    if is_url(store):
        return f"{table}.{hashlib.sha256(place_of(store).encode()).hexdigest()[:DIGITS]}.load"
    return f"{store.removeprefix('unix:')}.{table}.load"


class Mark:
    """How many records were taken, how many of them refused, a sum of all, and how many rows were sent behind them.

    A mark that is there when it is read was left by a load that was stopped: the rows that were sent are all made, or
    none is.
    """

    def __init__(self, path: Path) -> None:
        self.path = path
        self.records, self.refused, self.sum, self.sent = 0, 0, 0, 0
        self.file: int | None = None
        try:
            content = self.read()
        except OSError as error:
            raise OperationalError(f"{path} can't be read: {error.strerror}") from error
        self.is_resumed = content is not None
        # A load of before that was stopped before its first record's end has left nothing in it, and may have made one.
        self.sent = int(self.is_resumed)
        if content:
            found = CONTENT.fullmatch(content)
            if found is None:
                raise OperationalError(f"{path} is no mark of a load; take it away first, or name another by --mark")
            self.records, self.refused, self.sum, self.sent = map(int, found.groups(b"1"))

    def read(self) -> bytes | None:
        """What stands in the file, or None where there is no file."""
        try:
            file = os.open(self.path, os.O_RDONLY | os.O_NOFOLLOW | os.O_CLOEXEC)
        except FileNotFoundError:
            return None
        try:
            return os.read(file, 1024)
        finally:
            os.close(file)

    def begin(self) -> None:
        """Makes the file, before a record is sent."""
        try:
            self.file = os.open(self.path, os.O_RDWR | os.O_CREAT | os.O_NOFOLLOW | os.O_CLOEXEC, 0o600)
        except OSError as error:
            raise OperationalError(f"{self.path} can't be written: {error.strerror}") from error

    def send(self, rows: int) -> None:
        """So many rows are about to be sent, as one batch."""
        self.sent = rows
        self.write()

    def take(self, records: int, refused: int, total: int) -> None:
        """So many records more were taken, and so many of them refused; the sum of all of them."""
        self.records, self.refused, self.sum, self.sent = self.records + records, self.refused + refused, total, 0
        self.write()

    def write(self) -> None:
        """Writes the numbers."""
        assert self.file is not None
        try:
            text = f"{self.records:020} {self.refused:020} {self.sum:010} {self.sent:03}\n"
            os.pwrite(self.file, text.encode(), 0)
        except OSError as error:
            raise OperationalError(f"{self.path} can't be written: {error.strerror}") from error

    def close(self, is_done: bool) -> None:
        """Closes the file, which is taken away where all is done."""
        if self.file is not None:
            os.close(self.file)
            if is_done:
                self.path.unlink(missing_ok=True)
