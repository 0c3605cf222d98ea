"""A whole copy of a store's file, taken while no statement is at hand."""

import os

from .engine import Engine, EngineEnded
from .errors import OperationalError, ended
from .private import copy_file, folder_beside, put_in_place, sync_path
from .replacing import LOG

# The name of a copy in its own folder, while it is made.
PART = "store"


def copy_with_log(path: str, copy: str) -> None:
    """Copies a file and its log, which lies beside the file that a link leads to."""
    real = os.path.realpath(path)
    copy_file(real, copy)
    if os.path.exists(real + LOG):
        copy_file(real + LOG, copy + LOG)


def make_one_file(path: str, program: str) -> None:
    """Has the engine open a store: a write that was cut off is settled, and what the log has is in the file, synced."""
    try:
        status, written = Engine(program, [path, "run"]).close(), ""
    except EngineEnded as end:
        status, written = end.status, end.written
    if status != 0:
        raise ended(status, written.strip())
    sync_path(path)


def copy_whole(path: str, copy: str, program: str) -> None:
    """Copies the file with its log, and opens the copy once, so that all stands in one file. The copy must be new."""
    for name in (copy, copy + LOG):
        if os.path.lexists(name):
            raise OperationalError(f"{name} is there already: a copy has to be a new file")
    try:
        with folder_beside(copy) as folder:
            part = os.path.join(folder, PART)
            copy_with_log(path, part)
            make_one_file(part, program)
            put_in_place(part, copy)
    except OSError as error:
        raise OperationalError(f"the copy {copy} can't be made: {error}") from error
