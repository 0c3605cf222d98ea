"""The sockets of a server: each is made where nothing stands, or in place of one that this user's server left behind.

Nothing else is ever taken away: no file, no folder, no link, no socket at which somebody listens, and at the end no
socket that another server has made in the place of this one's.
"""

import contextlib
import fcntl
import os
import socket
import stat
import time
from collections.abc import Iterator

from ..errors import OperationalError
from .rights import Place

BACKLOG = 64
# The longest path of a socket, in bytes.
PATH_BYTES = 107
# For how many seconds a server waits for another one that makes a socket in the same folder.
PATIENCE = 5.0
# What SQLite and the engine keep beside a store's file.
BESIDE = ("-wal", "-shm", "-journal")


def is_listened_at(path: str) -> bool:
    """Whether somebody listens at a socket. One that can't be asked is taken for such a one."""
    probe = socket.socket(socket.AF_UNIX, socket.SOCK_STREAM)
    # One whose clients wait in a full row would let a blocking connect wait too.
    probe.setblocking(False)
    try:
        probe.connect(path)
    except (ConnectionRefusedError, FileNotFoundError):
        return False
    except OSError:
        return True
    finally:
        probe.close()
    return True


def is_left_behind(path: str) -> bool:
    """Whether a server of this user left a socket here. Whatever else stands here is refused."""
    try:
        found = os.lstat(path)
    except FileNotFoundError:
        return False
    if not stat.S_ISSOCK(found.st_mode):
        raise OperationalError(f"{path} is there and is no socket; it was left as it is (the words are STORE SOCKET)")
    if found.st_uid != os.geteuid():
        raise OperationalError(f"the socket {path} is another user's")
    if is_listened_at(path):
        raise OperationalError(f"a server listens at {path} already")
    return True


def check_place(path: str) -> None:
    """Refuses a path at which no socket can be made."""
    if len(os.fsencode(path)) > PATH_BYTES:
        raise OperationalError(f"the path of a socket has at most {PATH_BYTES} bytes: {path}")
    is_left_behind(path)


def check_beside(path: str, store: str) -> None:
    """Refuses a socket at a store's file, or at what lies beside it; `store` is a file's path."""
    if os.path.exists(store) and stat.S_ISSOCK(os.stat(store).st_mode):
        raise OperationalError(f"the store {store} is a socket, and no file (the words are STORE SOCKET)")
    if os.path.realpath(path) in [os.path.realpath(store) + ending for ending in ("", *BESIDE)]:
        raise OperationalError(f"{path} is the store's own file: the socket needs another path")


@contextlib.contextmanager
def locked_folder(path: str) -> Iterator[None]:
    """Has the folder of a socket alone among the servers that make one there."""
    folder = os.open(os.path.dirname(path) or ".", os.O_RDONLY | os.O_DIRECTORY)
    until = time.monotonic() + PATIENCE
    try:
        while True:
            try:
                fcntl.flock(folder, fcntl.LOCK_EX | fcntl.LOCK_NB)
                break
            except BlockingIOError as error:
                if time.monotonic() > until:
                    raise OperationalError(f"another program holds the folder of {path} locked") from error
            time.sleep(0.01)
        yield
    finally:
        os.close(folder)


class Listener:
    """A socket that clients connect to. Its mode says who may: by 0600 only the owner."""

    def __init__(self, place: Place) -> None:
        self.place, self.path = place, place.path
        self.socket = socket.socket(socket.AF_UNIX, socket.SOCK_STREAM)
        try:
            with locked_folder(self.path):
                self.made = self.bound()
        except BaseException:
            self.socket.close()
            raise

    def bound(self) -> tuple[int, int]:
        """Makes the socket, and listens; its device and its inode."""
        if is_left_behind(self.path):
            os.unlink(self.path)
        before = os.umask(0o777 & ~self.place.mode)
        try:
            self.socket.bind(self.path)
        finally:
            os.umask(before)
        found = os.lstat(self.path)
        self.socket.listen(BACKLOG)
        self.socket.setblocking(False)
        return found.st_dev, found.st_ino

    def is_there(self) -> bool:
        """Whether what stands at the path is still this socket."""
        try:
            found = os.lstat(self.path)
        except OSError:
            return False
        return (found.st_dev, found.st_ino) == self.made

    def close(self) -> None:
        """Takes the socket away, if it is still this one, and listens no more."""
        # While it still listens no other server takes it for one that was left behind.
        if self.is_there():
            with contextlib.suppress(OSError):
                os.unlink(self.path)
        self.socket.close()
