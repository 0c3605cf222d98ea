"""The processes that this one began."""

import contextlib
import os
import signal
from pathlib import Path

PARENT = 1


def children() -> list[int]:
    """Their numbers."""
    found, own = [], str(os.getpid())
    for entry in filter(str.isdigit, os.listdir("/proc")):
        with contextlib.suppress(OSError):
            # The name before the last parenthesis may have any bytes in it.
            behind = Path("/proc", entry, "stat").read_bytes().rpartition(b")")[2].split()
            if behind[PARENT].decode() == own:
                found.append(int(entry))
    return found


def kill_children() -> None:
    """Ends them at once."""
    for number in children():
        with contextlib.suppress(ProcessLookupError):
            os.kill(number, signal.SIGKILL)
