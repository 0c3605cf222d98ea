"""A store's file for one process alone, by the lock that the engine and SQLite take on it.

It is a lock of the open file (F_OFD_SETLK), so that nothing else that this process opens or closes gives it back. Under
it the file is read without SQLite's own locks.
"""

import contextlib
import errno
import fcntl
import os
import struct
from collections.abc import Iterator

from .errors import OperationalError

# The bytes of SQLite's file format on which its locks are, and the form of C's struct flock.
FIRST, COUNT = 0x4000_0000, 512
FLOCK = struct.Struct("hhqqi4x")
IN_USE = "somebody has {path} open (a run, a server, or sqlite3): end that first, or ask a server by unix:SOCKET"


def take_lock(file: int, path: str, kind: int) -> None:
    """Takes the lock, or says that another process has the file."""
    try:
        fcntl.fcntl(file, fcntl.F_OFD_SETLK, FLOCK.pack(kind, os.SEEK_SET, FIRST, COUNT, 0))
    except OSError as error:
        if error.errno in (errno.EAGAIN, errno.EACCES):
            raise OperationalError(IN_USE.format(path=path)) from error
        raise


@contextlib.contextmanager
def held(path: str) -> Iterator[None]:
    """A plain file that nobody else opens for this while, to read and to write. A link is refused."""
    with opened_for(path, os.O_RDWR | os.O_NOFOLLOW, fcntl.F_WRLCK):
        yield


@contextlib.contextmanager
def held_for_reading(path: str) -> Iterator[None]:
    """A file that no engine has for this while: each of them holds its file alone."""
    with opened_for(path, os.O_RDONLY, fcntl.F_RDLCK):
        yield


@contextlib.contextmanager
def opened_for(path: str, how: int, kind: int) -> Iterator[None]:
    """A file with a lock on it. What can't be opened is told."""
    try:
        file = os.open(path, how | os.O_CLOEXEC)
    except OSError as error:
        why = "it is a link" if error.errno == errno.ELOOP else error.strerror
        raise OperationalError(f"{path} can't be opened: {why}") from error
    try:
        take_lock(file, path, kind)
        if not os.path.samestat(os.fstat(file), os.stat(path)):
            raise OperationalError(f"another file was put at {path} just now; try again")
        yield
    finally:
        os.close(file)
