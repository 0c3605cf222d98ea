"""The frame of a command: its help, and an end without a traceback if nobody reads what it writes."""

import os
import sys
from collections.abc import Callable

from tools.statuses import WRITE_FAULT


def run(main: Callable[[list[str]], int], text: str | None = None) -> None:
    """Ends this process with the status of a command over its words. A command with a text has this as its help."""
    words = sys.argv[1:]
    try:
        if text and "--help" in words:
            print(text.strip())
            status = 0
        else:
            status = main(words)
        sys.stdout.flush()
    except BrokenPipeError:
        # The reader has gone, as `head` does. What is kept for it goes nowhere.
        os.dup2(os.open(os.devnull, os.O_WRONLY), sys.stdout.fileno())
        status = WRITE_FAULT
    sys.exit(status)
