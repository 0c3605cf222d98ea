"""A copy in the place of a store's file. The file of before stays, with its log, under another name."""

import contextlib
import os
import sqlite3
import sys
from typing import TextIO

from .backup import PART, copy_with_log, make_one_file
from .counting import counted
from .engine import find_program
from .errors import DatabaseError, InternalError, OperationalError
from .holding import held, held_for_reading
from .private import folder_beside
from .replacing import replace, take_rights
from .stored import check_formats, opened
from .targets import check_files
from .verify import verify

Program = str | os.PathLike[str] | None
DAMAGED = 6


def check_copy(part: str, copy: str) -> None:
    """Refuses what is no database, one that SQLite finds damaged, and one of a later version."""
    try:
        with opened(part) as file:
            (found,) = file.execute("PRAGMA integrity_check(1)").fetchone()
            if found != "ok":
                raise InternalError(f"SQLite finds it damaged: {found}")
            check_formats(file)
    except sqlite3.Error as error:
        raise InternalError(f"{copy} is damaged: {error}") from error
    except DatabaseError as error:
        raise type(error)(f"{copy} isn't restored: {error}") from error


def check_by_engine(part: str, copy: str, program: str) -> None:
    """Has the engine open the copy, which brings all of it into one file."""
    try:
        make_one_file(part, program)
    except DatabaseError as error:
        way = "it is damaged, or a later version wrote it" if error.status == DAMAGED else str(error)
        raise type(error)(f"{copy} isn't restored: {way}") from error


def check_whole(part: str, copy: str, tell: TextIO, program: str) -> None:
    """Refuses a copy whose pairs differ from one another."""
    done = verify(part, tell, sys.stderr, program)
    if done.differences:
        why = f"it has {counted(done.differences, 'difference')}; --unchecked takes it as it is"
        raise InternalError(f"{copy} isn't restored: {why}")


def put(part: str, path: str, tell: TextIO) -> None:
    """Gives the new file the name, and tells where the old one is."""
    if os.path.lexists(path):
        take_rights(part, path)
    aside = replace(part, path)
    if aside is not None:
        print(f"what was {path} is {aside}; a file {aside}-wal belongs to it", file=tell)


def restore(copy: str, path: str, tell: TextIO, program: Program = None, is_unchecked: bool = False) -> None:
    """Puts a copy of a store in the place of a file, which nobody may have open. The copy stays as it is.

    One that is unchecked may have differences that verify finds; SQLite and the engine have to take it all the same.
    """
    check_files(copy, path)
    engine = find_program("piql_file", program)
    if os.path.realpath(copy) == os.path.realpath(path):
        raise OperationalError(f"{copy} is the file itself")
    try:
        with held(path) if os.path.lexists(path) else contextlib.nullcontext(), folder_beside(path) as folder:
            part = os.path.join(folder, PART)
            with held_for_reading(copy):
                copy_with_log(copy, part)
            check_copy(part, copy)
            check_by_engine(part, copy, engine)
            if not is_unchecked:
                check_whole(part, copy, tell, engine)
            put(part, path, tell)
    except OSError as error:
        raise OperationalError(f"{path} can't be restored: {error}") from error
