"""What clients in turn cost beside a session, over the same writes."""

from __future__ import annotations

import os
import pathlib
import subprocess
import tempfile

from cases import NAMED, insert
from tables import Foreign, Limit, Table

CLIENTS, USERS = 16, 250
GROUPED = Table("t", 2, ("id", "g", "v"), limits=(Limit(100, (1,)),), foreign=(Foreign((1,), 1),))
TIMES = 1


def script(writes: int) -> str:
    """INSERTs of users, and of rows that name them, up to 39 of each group."""
    rows = [insert(NAMED, (number, 0)) for number in range(USERS)]
    rows += [insert(GROUPED, (number, number % USERS, number)) for number in range(writes - USERS)]
    tables = (NAMED, GROUPED)
    return "\n".join([*(table.text(tables) for table in tables), *(row.text() for row in rows), ""])


def seconds(program: pathlib.Path, mode: list[str], path: pathlib.Path, wanted: bytes, count: int) -> float:
    """The processor time of a run, which has to make all writes."""
    with path.open("rb") as read, tempfile.TemporaryFile() as wrote:
        run = subprocess.Popen([program, *mode], stdin=read, stdout=wrote)
        _, status, used = os.wait4(run.pid, 0)
        run.returncode = os.waitstatus_to_exitcode(status)
        wrote.seek(0)
        found = wrote.read().count(wanted)
    if run.returncode or found != count:
        raise SystemExit(f"clients: {mode} ended with {run.returncode}, and made {found} of {count}")
    return used.ru_utime + used.ru_stime


def compare(program: pathlib.Path, writes: int) -> str:
    """The line of figures: of each the least of some runs."""
    with tempfile.TemporaryDirectory() as folder:
        path = pathlib.Path(folder, "script")
        path.write_text(script(writes))
        runs = [
            (
                seconds(program, ["run"], path, b" ok bound", writes + 2),
                seconds(program, ["turns", str(CLIENTS)], path, b" done\n", writes),
            )
            for _ in range(TIMES)
        ]
    session, clients = (min(times) for times in zip(*runs))
    line = f"{writes} writes took a session {session:.1f} s of a processor, and {CLIENTS} clients {clients:.1f} s"
    return f"{line}, {clients / session:.2f} times as long"
