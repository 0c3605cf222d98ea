"""Running a script whose writes several clients make: its words, and the program that it is handed to."""

import re
import sys

from tools.launch import ended, found, run_once, tell
from tools.statuses import BRIEFLY, NO_PROGRAM, USAGE
from tools.words import Wrong, check_script, shown

NAME = "piql_clients"
MOST_CLIENTS = 16
HELP = f"""\
usage:
  bin/{NAME} K [SCRIPT]  runs a script, or standard input, whose writes K clients make, from 1 to {MOST_CLIENTS}
  bin/{NAME} --help      tells more
The store is a new one in memory. The statements before the first write are made and reported as by bin/piql. The writes
from there on are dealt to the clients in turn, which make one call of the store each, over and over. Every other
statement behind the first write is skipped, and so is a write on a table with a counter. Then what each client was told
of each of its writes is written.
{BRIEFLY}"""


def read_words(words: list[str]) -> tuple[str, str | None]:
    """How many clients, and the script where there is one."""
    if not 1 <= len(words) <= 2:
        raise Wrong(f"the words are a number of clients, from 1 to {MOST_CLIENTS}, and perhaps a script")
    count, *scripts = words
    if not re.fullmatch(r"[1-9][0-9]?", count) or int(count) > MOST_CLIENTS:
        raise Wrong(f"`{shown(count)}` is no number of clients from 1 to {MOST_CLIENTS}")
    for script in scripts:
        check_script(script)
    return count, scripts[0] if scripts else None


def run_clients(count: str, script: str | None) -> int:
    """Finds the program and runs it."""
    program = found(NAME)
    if program is None:
        return NO_PROGRAM
    if script is None:
        return ended(NAME, run_once(program, [count], None))
    with open(script, "rb") as opened:
        return ended(NAME, run_once(program, [count], opened))


def main(words: list[str]) -> int:
    """Runs what the words ask for."""
    if "--help" in words:
        print(HELP)
        return 0
    try:
        count, script = read_words(words)
    except Wrong as error:
        tell(NAME, str(error))
        print(HELP.split("The store", 1)[0], end="", file=sys.stderr)
        return USAGE
    return run_clients(count, script)
