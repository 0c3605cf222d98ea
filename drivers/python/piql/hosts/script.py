"""A whole script over a store that a URL names, as `piql run` runs one over a store in memory."""

import sys
from typing import BinaryIO

from ..engine import find_program
from ..errors import OperationalError
from .backend import Backend, Fault, Held
from .host import Host, run
from .link import Program
from .passwords import shown
from .urls import open_store

FAULTY = "{name}: a call failed: {why}"


def run_script(store: Backend, script: BinaryIO, reports: BinaryIO, program: Program = None) -> tuple[int, Host]:
    """Runs a script; its status, and the host with what it served. Reports are written as they come."""

    def report(text: bytes) -> None:
        reports.write(text)
        reports.flush()

    host = Host([store])
    store.begin()
    read = getattr(script, "read1", script.read)
    return run(find_program("piql_host", program), host, read, report), host


def run_url(url: str, program: Program = None) -> int:
    """Runs the script on standard input, and writes its reports to standard output; the engine's status."""
    store = open_store(url)
    try:
        status, host = run_script(store, sys.stdin.buffer, sys.stdout.buffer, program)
    except (Held, Fault) as error:
        raise OperationalError(f"{shown(url)} isn't open: {error}") from error
    finally:
        store.close()
    if host.why:
        print(FAULTY.format(name=shown(url), why=host.why), file=sys.stderr)
    return status
