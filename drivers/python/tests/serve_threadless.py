"""Runs piql-serve on a system that gives one thread too few, for the tests of what it tells."""

import sys
import threading
from unittest import mock

import helpers  # noqa: F401 - it finds the package
from piql.serve import main

START = threading.Thread.start


def start(thread: threading.Thread) -> None:
    """Begins any thread but the one that would have the engine."""
    if thread.name == "worker":
        raise RuntimeError("no thread can be started")
    START(thread)


with mock.patch.object(threading.Thread, "start", start):
    sys.exit(main())
