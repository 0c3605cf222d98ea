"""Reading statements at a terminal: their lines, and a history of whole statements."""

import contextlib
import readline
from pathlib import Path
from typing import Protocol

HISTORY = "~/.piql_history"
ENDS = (".quit", ".exit", "quit", "exit")


class Reader(Protocol):
    """Takes what is typed."""

    def line(self, before: str, line: str) -> str:
        """Takes a line behind those that are no whole statement yet; what is left."""


def is_end(line: str) -> bool:
    """Whether a line asks for the end. Without a point, and with a `;`, as other prompts have it."""
    return line.strip().rstrip(";").strip().lower() in ENDS


def keep_as_one(begin: int) -> None:
    """Keeps the lines of the history behind a place as one, so that the whole statement comes again.

    A comment goes to the end of its line, so a statement with one stays as its lines.
    """
    places = range(begin + 1, readline.get_current_history_length() + 1)
    lines = [str(readline.get_history_item(place)).strip() for place in places]
    if len(lines) < 2 or any("--" in line for line in lines):
        return
    for place in reversed(places):
        readline.remove_history_item(place - 1)
    readline.add_history(" ".join(lines))


def read_lines(reader: Reader) -> None:
    """Reads until the end. An interrupt leaves the statement that isn't whole."""
    rest, begin = "", readline.get_current_history_length()
    while True:
        try:
            line = input("    > " if rest else "piql> ")
            if not rest and is_end(line):
                return
            rest = reader.line(rest, line)
        except EOFError:
            print()
            return
        except KeyboardInterrupt:
            print()
            rest = ""
        if not rest:
            keep_as_one(begin)
            begin = readline.get_current_history_length()


def prompt(reader: Reader) -> None:
    """Reads lines until the end, with the history of the last time."""
    history = Path(HISTORY).expanduser()
    with contextlib.suppress(OSError):
        readline.read_history_file(history)
    try:
        read_lines(reader)
    finally:
        with contextlib.suppress(OSError):
            readline.write_history_file(history)
