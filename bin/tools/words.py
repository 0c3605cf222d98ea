"""The words of bin/piql and bin/piql_file: what they ask for, or what is wrong with them."""

import os
import pathlib
import re
from typing import NamedTuple

from tools.statuses import BRIEFLY, STORE_FAULT, USAGE

SQLITE = b"SQLite format 3\0"
MOST_USERS = 20_000
FORMS = {
    "run [SCRIPT..]": "runs the statements of each script, or of standard input",
    "check [SCRIPT..]": "tells what each statement is refused for or may cost, without a store",
    "fill N": "makes a script for N users, from 1 to 20000, runs it and writes a summary",
    "--help": "tells more, with the statuses",
    "--version": "tells the version, and whether the program is proved",
}
STORES = {
    "piql": "Each script has a new store in memory. Several scripts are headed by their names.",
    "piql_file": "The store is the SQLite file PATH, which is made where it isn't there.",
}


class Wrong(Exception):
    """Words that no run is made for, and the status that says so."""

    def __init__(self, line: str, status: int = USAGE) -> None:
        super().__init__(line)
        self.status = status


class Asked(NamedTuple):
    """A run: the program's words but the scripts, and the scripts. Without one, standard input is read."""

    words: list[str]
    scripts: list[str]

    @property
    def reads_input(self) -> bool:
        """Whether the run reads standard input."""
        return not self.scripts and self.words[-1] in ("run", "check")


def usage(name: str) -> str:
    """How a program is called, in a few lines."""
    path = "PATH " if name == "piql_file" else ""
    forms = [("" if form.startswith("--") else path) + form for form in FORMS]
    width = max(map(len, forms))
    return "\n".join(["usage:", *(f"  bin/{name} {form:{width}}  {FORMS[form.removeprefix(path)]}" for form in forms)])


def help_of(name: str) -> str:
    """The usage with what the store is and what the statuses say."""
    return "\n".join([usage(name), STORES[name], BRIEFLY])


def check_script(script: str) -> None:
    """A script has to be there, and no folder."""
    if not os.path.exists(script):
        raise Wrong(f"there is no script {shown(script)}")
    if os.path.isdir(script):
        raise Wrong(f"{shown(script)} is a folder, and no script")
    if not os.access(script, os.R_OK):
        raise Wrong(f"{shown(script)} can't be read")


def check_file(path: str) -> None:
    """The file of a store has to be an SQLite file, or none yet, in a folder that is there."""
    folder = os.path.dirname(path) or "."
    if not path:
        raise Wrong("the path of the file is empty", STORE_FAULT)
    if os.path.isdir(path):
        raise Wrong(f"{shown(path)} is a folder, and no file", STORE_FAULT)
    if not os.path.isdir(folder):
        raise Wrong(f"there is no folder {shown(folder)} for the file {shown(path)}", STORE_FAULT)
    if not os.path.exists(path):
        return
    if not os.access(path, os.R_OK | os.W_OK):
        raise Wrong(f"{shown(path)} can't be read and written", STORE_FAULT)
    with pathlib.Path(path).open("rb") as file:
        start = file.read(len(SQLITE))
    if start and start != SQLITE:
        raise Wrong(f"{shown(path)} is no SQLite file, and is left as it is", STORE_FAULT)


def shown(word: str) -> str:
    """A word of the command line as a line of text, whatever its bytes are."""
    return os.fsencode(word).decode(errors="replace")


def read_form(words: list[str]) -> Asked:
    """The form that the words spell, behind the path of a file."""
    verb, *rest = words
    if verb in ("run", "check"):
        for script in rest:
            check_script(script)
        return Asked([verb], rest)
    if verb != "fill":
        raise Wrong(f"`{shown(verb)}` is none of run, check and fill")
    if len(rest) != 1 or not re.fullmatch(r"[1-9][0-9]{0,4}", rest[0]) or int(rest[0]) > MOST_USERS:
        raise Wrong(f"fill takes one number, from 1 to {MOST_USERS}, without a sign or a leading zero")
    return Asked(words, [])


def read_words(name: str, words: list[str]) -> Asked:
    """What the words of a program ask for. Those of no form, and a file that no store can be, are Wrong."""
    if not words:
        raise Wrong("a word is missing")
    if name == "piql":
        return read_form(words)
    path, *rest = words
    if not rest:
        raise Wrong("behind the path a word is missing")
    asked = read_form(rest)
    check_file(path)
    return Asked([path, *asked.words], asked.scripts)
