"""Why a store's file can't be used, as far as it can be looked at from outside.

An engine that can't open its file, or whose call failed, ends with status 5 and says no more. So the file, its folder
and its disk are looked at then, and nothing is changed by that.
"""

import os
import sqlite3
import stat
from pathlib import Path

HEAD = b"SQLite format 3\0"
SHAPE = "CREATE TABLE kv(k BLOB PRIMARY KEY, v BLOB NOT NULL)"
# A disk with less is told as full: a write wants some pages of the log.
SCARCE = 1 << 17
LOCKED = "another process has {path} open (a run, a server, or sqlite3); piql-serve hands one file to many"
UNKNOWN = "a call of the store failed, and {path}, its folder and its disk show no cause"


def cause_of(path: str) -> str:
    """The first cause that shows."""
    try:
        return plain_cause(path) or stored_cause(path) or place_cause(path) or UNKNOWN.format(path=path)
    except OSError as error:
        return f"{path} can't be looked at: {error.strerror}"


def plain_cause(path: str) -> str:
    """What is wrong with the file as a file. One that isn't there may be new."""
    if not os.path.lexists(path):
        return "" if os.path.isdir(folder_of(path)) else f"{path} has no folder"
    found = os.stat(path)
    if not stat.S_ISREG(found.st_mode):
        return f"{path} is no plain file"
    if found.st_nlink > 1:
        return f"{path} has a second name (a hard link)"
    with open(path, "rb") as file:
        head = file.read(len(HEAD))
    return "" if head in (b"", HEAD) else f"{path} is no SQLite file"


def stored_cause(path: str) -> str:
    """What SQLite says of the file, by a look that changes nothing."""
    if not os.path.exists(path):
        return ""
    try:
        shape = shape_of(path)
    except sqlite3.Error as error:
        # A disk without room, or without leave to write, keeps SQLite from reading too: it wants a file beside the log.
        unread = f"SQLite can't read {path}: {error}"
        return LOCKED.format(path=path) if "locked" in str(error) else place_cause(path) or unread
    return "" if shape in (None, SHAPE) else f"{path} has a table kv of another program"


def shape_of(path: str) -> str | None:
    """How the table of pairs was made, if it is there."""
    file = sqlite3.connect(Path(path).absolute().as_uri() + "?mode=ro", uri=True, timeout=0)
    try:
        found = file.execute("SELECT sql FROM sqlite_master WHERE name = 'kv'").fetchone()
    finally:
        file.close()
    return found and str(found[0])


def is_locked(path: str) -> bool:
    """Whether a process holds SQLite's lock on the file."""
    return stored_cause(path) == LOCKED.format(path=path)


def place_cause(path: str) -> str:
    """What is wrong with where the file is."""
    folder = folder_of(path)
    disk = os.statvfs(folder)
    if disk.f_flag & os.ST_RDONLY:
        return f"the disk of {path} is mounted for reading alone"
    if disk.f_bavail * disk.f_frsize < SCARCE or (disk.f_files and not disk.f_favail):
        return f"the disk of {path} is full"
    for place in (path, path + "-wal"):
        if os.path.exists(place) and not os.access(place, os.W_OK):
            return f"{place} may not be written"
    return "" if os.access(folder, os.W_OK) else f"the folder of {path} may not be written"


def folder_of(path: str) -> str:
    """The folder of a file."""
    return os.path.dirname(path) or "."
