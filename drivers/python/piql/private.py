"""Files that are made where nothing stands, with the rights of the file that they come from, or for their owner alone.

No link is followed, and nothing that is there is written over: a name that is taken raises FileExistsError.
"""

import contextlib
import os
import shutil
import stat
import tempfile
from collections.abc import Iterator

OWNER_ONLY = 0o600
NEW = os.O_WRONLY | os.O_CREAT | os.O_EXCL | os.O_NOFOLLOW | os.O_CLOEXEC


def new_file(path: str | os.PathLike[str], mode: int = OWNER_ONLY) -> int:
    """The descriptor of a new file with just these rights, whatever the process's mask is."""
    made = os.open(path, NEW, OWNER_ONLY)
    os.fchmod(made, mode)
    return made


def copy_file(source: str, copy: str) -> None:
    """A new file with the bytes and the rights of another one, synced."""
    with open(source, "rb") as old:
        mode = stat.S_IMODE(os.fstat(old.fileno()).st_mode)
        with open(new_file(copy, mode), "wb") as new:
            shutil.copyfileobj(old, new, 1 << 20)
            new.flush()
            os.fsync(new.fileno())


def sync_path(path: str) -> None:
    """Waits until a file, or a folder's list of names, is on the disk."""
    file = os.open(path, os.O_RDONLY | os.O_CLOEXEC)
    try:
        os.fsync(file)
    finally:
        os.close(file)


def folder_of(path: str) -> str:
    """The folder in which a name stands."""
    return os.path.dirname(path) or "."


@contextlib.contextmanager
def folder_beside(path: str) -> Iterator[str]:
    """A new folder, which only its owner may enter, on the disk of a name; it is taken away with what lies in it."""
    folder = tempfile.mkdtemp(".part", f"{os.path.basename(path)}.", folder_of(path))
    try:
        yield folder
    finally:
        shutil.rmtree(folder, ignore_errors=True)


def put_in_place(part: str, path: str) -> None:
    """Gives a synced file the name at which nothing stands."""
    if os.path.lexists(path):
        raise FileExistsError(f"{path} is there already")
    os.rename(part, path)
    sync_path(folder_of(path))
