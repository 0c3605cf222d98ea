"""How heavy the floors of the crates are: functions by their parameters, clauses and how many stand more than once."""

import argparse
import collections
import dataclasses
import pathlib
import re
from collections.abc import Iterable, Iterator

from tools.repository import TOP, Repository

TESTS = re.compile(r"pq_tests?_|pq_cases$|piql_examples$")
FUNCTION = re.compile(r"^\s*(?:pub(?:\([a-z]+\))? )?(?:const |unsafe |final )*fn (\w+)", re.MULTILINE)
CLAUSE = re.compile(r"^\s*(?:ensures|requires)\b")
MANY_PARAMETERS = 8
# How many clauses are listed.
MOST_DOUBLES = 40
# Phrases that loose stores and catalogs leave in clauses.
PHRASES = ("S.content store.", "catalog.now.tables")
OPENING, CLOSING = "([{<", ")]}>"


@dataclasses.dataclass(frozen=True)
class Function:
    """A function: its name, where it stands, the names of its parameters without `self`, and its clauses."""

    name: str
    place: pathlib.Path
    parameters: tuple[str, ...]
    clauses: tuple[str, ...]
    clause_lines: int


def closed_at(text: str, start: int) -> int:
    """The place behind the bracket that closes the one at `start`. An arrow closes nothing."""
    depth = 0
    for at in range(start, len(text)):
        if text[at] in OPENING:
            depth += 1
        elif text[at] in CLOSING and text[at - 1 : at + 1] not in ("->", "=>"):
            depth -= 1
            if depth == 0:
                return at + 1
    return len(text)


def split_list(text: str) -> list[str]:
    """The parts of a list between commas that stand in no brackets."""
    parts, depth, begin = [], 0, 0
    for at, character in enumerate(text):
        if character in OPENING:
            depth += 1
        elif character in CLOSING and text[at - 1 : at + 1] not in ("->", "=>"):
            depth -= 1
        elif character == "," and depth == 0:
            parts.append(text[begin:at])
            begin = at + 1
    return [part.strip() for part in [*parts, text[begin:]] if part.strip()]


def parameters_at(text: str, start: int) -> tuple[tuple[str, ...], int]:
    """The parameters of the function whose name ends at `start`, and the place behind them."""
    begin = closed_at(text, start) if text[start : start + 1] == "<" else start
    end = closed_at(text, begin)
    names = [part.partition(":")[0].removeprefix("mut ").strip() for part in split_list(text[begin + 1 : end - 1])]
    return tuple(name for name in names if not name.endswith("self")), end


def clauses_behind(lines: Iterable[str]) -> tuple[tuple[str, ...], int]:
    """The clauses behind the parameters of a function, each as one line, and how many lines they take."""
    clauses: list[str] = []
    taken = 0
    for line in lines:
        is_body = line.strip() in ("{", "{}") or (not clauses and line.rstrip().endswith(("{", "{}")))
        if is_body:
            break
        if CLAUSE.match(line):
            clauses.append("")
        if clauses:
            clauses[-1] = f"{clauses[-1]} {line.strip()}".strip()
            taken += 1
        # A method of a trait without a body ends so.
        if line.rstrip().endswith(";"):
            break
    return tuple(clauses), taken


def functions_of(place: pathlib.Path) -> Iterator[Function]:
    """The functions of a file."""
    text = place.read_text()
    for found in FUNCTION.finditer(text):
        parameters, end = parameters_at(text, found.end())
        clauses, lines = clauses_behind(text[end:].split("\n"))
        yield Function(found[1], place, parameters, clauses, lines)


def sources(repository: Repository) -> list[pathlib.Path]:
    """The source files of all crates but those of tests."""
    crates = [name for name in repository.uses if not TESTS.match(name)]
    return [path for name in crates for path in sorted((repository.folder(name) / "src").rglob("*.rt"))]


def all_functions(repository: Repository) -> list[Function]:
    """The functions of all crates but those of tests."""
    return [function for path in sources(repository) for function in functions_of(path)]


def clauses_of(functions: Iterable[Function]) -> collections.Counter[str]:
    """The clauses of functions, and how often each stands there."""
    return collections.Counter(clause for function in functions for clause in function.clauses)


def counts(repository: Repository) -> dict[str, int]:
    """The counts by what they are of."""
    functions = all_functions(repository)
    clauses = clauses_of(functions)
    texts = [path.read_text() for path in sources(repository)]
    found = {
        "crates": len(repository.uses),
        "functions": len(functions),
        f"functions with {MANY_PARAMETERS} or more parameters": sum(
            len(function.parameters) >= MANY_PARAMETERS for function in functions
        ),
        "most parameters": max((len(function.parameters) for function in functions), default=0),
        "clauses": sum(clauses.values()),
        "lines of clauses": sum(function.clause_lines for function in functions),
        "clauses that stand more than once": sum(number for number in clauses.values() if number > 1),
    }
    return found | {phrase: sum(text.count(phrase) for text in texts) for phrase in PHRASES}


def heaviest(repository: Repository) -> list[str]:
    """A line for each function with many parameters, those with most first."""
    many = sorted(all_functions(repository), key=lambda it: (-len(it.parameters), str(it.place)))
    return [
        f"{len(function.parameters)} {function.place.relative_to(repository.top)} {function.name}"
        for function in many
        if len(function.parameters) >= MANY_PARAMETERS
    ]


def doubles(repository: Repository) -> list[str]:
    """A line for each of the clauses that stand most often, with how often it does."""
    often = clauses_of(all_functions(repository)).most_common(MOST_DOUBLES)
    return [f"{number:>7,}  {clause}" for clause, number in often if number > 1]


def main(words: list[str]) -> int:
    parser = argparse.ArgumentParser(prog="bin/house", description="Counts functions and clauses of the crates.")
    lists = parser.add_mutually_exclusive_group()
    lists.add_argument("--parameters", action="store_true", help="lists the functions with many parameters")
    lists.add_argument("--doubles", action="store_true", help="lists the clauses that stand most often")
    given = parser.parse_args(words)
    repository = Repository(TOP)
    if given.parameters or given.doubles:
        print(*(heaviest(repository) if given.parameters else doubles(repository)), sep="\n")
        return 0
    for name, number in counts(repository).items():
        print(f"{number:>7,}  {name}")
    return 0
