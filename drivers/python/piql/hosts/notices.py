"""What an operator has to know of a store, and what no caller can be told by an exception: lines on standard error."""

import functools
import sys


@functools.cache
def notice(text: str) -> None:
    """Tells a line, once in a process."""
    print(f"piql: {text}", file=sys.stderr, flush=True)
