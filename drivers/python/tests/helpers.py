"""What the tests share: the programs that were built, folders for files, and a case with a store of its own."""

import os
import shutil
import sys
import tempfile
import unittest
from pathlib import Path

TOP = Path(__file__).resolve().parents[3]
sys.path.insert(0, str(TOP / "drivers/python"))

import piql  # noqa: E402 - the package stands beside the tests
from piql.engine import Engine  # noqa: E402
from piql.links import FileLink  # noqa: E402


def built(name: str) -> str | None:
    """The program of this name: that of the environment, the proved build, the kept one without proofs, or None."""
    given = os.environ.get(name.upper())
    kept = sorted((TOP / "out" / "unproved").glob(f"{name}-????????????????"))
    found = [Path(given)] if given else [TOP / "crates" / name / "out" / name, *kept]
    return next((str(path) for path in found if os.access(path, os.X_OK)), None)


PIQL_FILE = built("piql_file")
PIQL = built("piql")
for name, program in (("PIQL_FILE", PIQL_FILE), ("PIQL", PIQL)):
    if program:
        os.environ[name] = program

needs_file = unittest.skipUnless(PIQL_FILE, "crates/piql_file is not built")
needs_memory = unittest.skipUnless(PIQL, "crates/piql is not built")
# A build without proofs checks each step, and takes minutes where a proved one takes seconds.
needs_speed = unittest.skipIf("unproved" in f"{PIQL} {PIQL_FILE}", "it takes long over a build without proofs")


def make_folder() -> Path:
    """A folder for files; in memory where the machine has such a place, since each write waits for a sync."""
    place = "/dev/shm" if os.access("/dev/shm", os.W_OK) else None
    return Path(tempfile.mkdtemp(prefix="piql-test-", dir=place))


def new_folder(case: unittest.TestCase) -> Path:
    """A folder for the files of a test."""
    folder = make_folder()
    case.addCleanup(shutil.rmtree, folder, ignore_errors=True)
    return folder


def engine_of(connection: piql.Connection) -> Engine:
    """The run behind a connection to a file."""
    link = connection.link()
    assert isinstance(link, FileLink) and link.engine is not None
    return link.engine


@needs_file
class StoreCase(unittest.TestCase):
    """A case whose tests share one store, which `script` has defined. Each SELECT is prepared there, as it was read."""

    script = ""
    connection: piql.Connection
    path: Path

    @classmethod
    def setUpClass(cls) -> None:
        folder = make_folder()
        cls.addClassCleanup(shutil.rmtree, folder, ignore_errors=True)
        cls.path = folder / "store.db"
        cls.connection = piql.connect(cls.path, prepare=True)
        cls.addClassCleanup(cls.connection.close)
        cls.connection.cursor().executescript(cls.script)


__all__ = [
    "PIQL",
    "PIQL_FILE",
    "StoreCase",
    "TOP",
    "built",
    "engine_of",
    "make_folder",
    "needs_file",
    "needs_memory",
    "needs_speed",
    "new_folder",
    "piql",
]
