"""A new file that nobody uses yet, filled without waiting for the disk but once, at its end."""

import contextlib
import os
from collections.abc import Iterator

from .backup import make_one_file
from .connection import Connection
from .engine import find_program
from .errors import InterfaceError
from .hosts.link import HostLink
from .hosts.sqlite import SqliteStore
from .links import FileLink, Link
from .private import new_file

Program = str | os.PathLike[str] | None
# What is lost with the machine's power is a file that has no name yet.
UNSYNCED = ("PRAGMA journal_mode = OFF", "PRAGMA synchronous = OFF")


class UnsyncedStore(SqliteStore):
    """A new file whose writes are on the disk only once it has been synced as a whole."""

    def begin(self) -> None:
        if self.file is not None:
            return
        os.close(new_file(self.path))
        super().begin()
        for text in UNSYNCED:
            self.run(text)


def filling_link(path: str, program: Program) -> Link:
    """The way to a new file: by an engine whose host keeps the file, or, where that one isn't there, by `program`."""
    try:
        host = find_program("piql_host")
    except InterfaceError:
        return FileLink(path, program, 5.0)
    return HostLink(path, UnsyncedStore(path), host)


@contextlib.contextmanager
def filled(path: str, program: Program) -> Iterator[Connection]:
    """A connection to a new file. At the end the engine opens the file once, and it is synced."""
    engine = find_program("piql_file", program)
    with contextlib.closing(filling_link(path, engine)) as link:
        yield Connection(link)
    make_one_file(path, engine)
