"""A new file from scripts, as bin/dump writes them: the same pairs, with one wait for the disk at the end."""

import io
import os
from collections.abc import Iterable
from typing import NamedTuple, TextIO

from .backup import PART, make_one_file
from .counting import counted
from .engine import find_program
from .errors import OperationalError, ended
from .filling import UnsyncedStore
from .hosts.backend import Backend, Fault, Held
from .hosts.script import run_script
from .private import folder_beside, put_in_place
from .reports import EndLine, cut_lines, read_line
from .targets import check_files

Program = str | os.PathLike[str] | None
SOME_REFUSED = 1


class Made(NamedTuple):
    """How many statements were reported, and how many of them refused."""

    statements: int
    refused: int


def ends_of(reports: str) -> list[EndLine]:
    """The end lines of a run's reports."""
    lines = (read_line(line) for line in cut_lines(reports) if line[0].isdecimal())
    return [line for line in lines if isinstance(line, EndLine)]


def run_one(store: Backend, program: str, script: str) -> str:
    """Runs a script, each statement of which is a definition or a write; its reports."""
    reports = io.BytesIO()
    with open(script, "rb") as source:
        status, host = run_script(store, source, reports, program)
    if status > SOME_REFUSED or status < 0:
        raise ended(status, f"The script is {script}. {host.why}".strip())
    return reports.getvalue().decode(errors="replace")


def run_scripts(store: Backend, program: str, scripts: Iterable[str], tell: TextIO) -> Made:
    """Runs scripts one after the other, and tells each refusal by its script and its statement."""
    statements = refused = 0
    for script in scripts:
        ends = ends_of(run_one(store, program, script))
        statements += len(ends)
        for end in ends:
            if end.refusal:
                refused += 1
                print(f"{script}, statement {end.number}: {' '.join(end.refusal)}", file=tell)
    return Made(statements, refused)


def make(new: str, scripts: Iterable[str], tell: TextIO, program: Program = None) -> Made:
    """Makes a file, which may not be there yet, of what scripts define and write."""
    check_files(new)
    host, engine = find_program("piql_host"), find_program("piql_file", program)
    if os.path.lexists(new):
        raise OperationalError(f"{new} is there already: it has to be a new file")
    try:
        with folder_beside(new) as folder:
            part = os.path.join(folder, PART)
            store = UnsyncedStore(part)
            try:
                made = run_scripts(store, host, scripts, tell)
            finally:
                store.close()
            make_one_file(part, engine)
            put_in_place(part, new)
    except (OSError, Fault, Held) as error:
        raise OperationalError(f"{new} can't be made: {error}") from error
    print(f"{counted(made.statements, 'statement')}, {made.refused} refused", file=tell)
    return made
