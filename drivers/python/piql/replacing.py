"""One file in the place of another, so that at each moment a whole store stands under the name or beside it.

The old file gets a second name before anything of it is touched, and its log with it. An engine refuses a file with two
names, so none opens it until the new one is in its place, even where this is cut off. Only then is the log taken from
beside the name, for SQLite would read it into the new file; and last the new file takes the name, in one step.
"""

import os
import time

from .private import folder_of, sync_path

LOG, SHARED = "-wal", "-shm"
BESIDE = (LOG, SHARED)


def unused_name(path: str) -> str:
    """A name beside a file for what it was until now, at which nothing stands."""
    front = f"{path}.until-{time.strftime('%Y%m%dT%H%M%SZ', time.gmtime())}"
    name, number = front, 1
    while any(os.path.lexists(name + ending) for ending in ("", *BESIDE)):
        number += 1
        name = f"{front}-{number}"
    return name


def take_rights(part: str, path: str) -> None:
    """Gives a new file the owner and the rights of the one that it takes the place of."""
    old = os.stat(path, follow_symlinks=False)
    if os.geteuid() == 0:
        os.chown(part, old.st_uid, old.st_gid)
    os.chmod(part, old.st_mode & 0o7777)


def give_names(path: str, aside: str, endings: list[str]) -> None:
    """Gives the files with these endings a second name each, or none of them."""
    made: list[str] = []
    try:
        for ending in endings:
            os.link(path + ending, aside + ending, follow_symlinks=False)
            made.append(aside + ending)
    except OSError:
        for name in made:
            os.unlink(name)
        raise
    sync_path(folder_of(path))


def replace(part: str, path: str) -> str | None:
    """Puts a synced file under a name. What stood there, with its log, has the name that is answered from then on.

    The caller holds the old file, if there is one.
    """
    there = [ending for ending in (*BESIDE, "") if os.path.lexists(path + ending)]
    aside = unused_name(path)
    give_names(path, aside, there)
    for ending in BESIDE:
        if ending in there:
            os.unlink(path + ending)
    sync_path(folder_of(path))
    os.rename(part, path)
    sync_path(folder_of(path))
    return aside if there else None
