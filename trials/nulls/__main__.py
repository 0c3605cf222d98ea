#!/usr/bin/env python3
"""Asks made tables with NULL in them, and compares each page with a filter and a sort of their rows.

    python3 trials/nulls                          all made cases, over crates/piql/out/piql
    python3 trials/nulls --every 9                each ninth query
    python3 trials/nulls --engine 'bin/piql'      another build, as words of a command line
    python3 trials/nulls --files 'bin/piql_file'  the same for the program over a file

The tables have a key and two nullable columns, of each two types. Their rows are all collections of up to four pairs
of NULL, the least and the greatest value, each collection in a group of its own. They are put in before or behind the
queries, or are changed to what they have to be. The queries have each comparison with the least and the greatest, as a
constant and as a parameter, and IS NULL; no order, and the order of one and of both columns in all directions; no
stop, and LIMIT and PAGINATE of 1 and 2; and joins by a nullable column. Those without a bound have to be refused. Each
other one is run over three groups, page by page to the end, behind the cursor that the page before has to print.

Then a script of the language without NULL is run, whose tables and columns are called `is` and `null`, and a script
with NULL where it can't be. And over a file with the pairs of a store of the time before NULL, SHOW, the queries and
refused writes have to leave these pairs.

Where no engine is named and crates/piql/out/piql is missing or older than a source, the sources are run without a
proof; where there is no such build of piql_file, the last case is told and left out. The last line has the figures. The
exit status is 0 where nothing differs.
"""

import argparse
import itertools
import pathlib
import shlex
import subprocess
import sys
from collections.abc import Iterable, Iterator, Sequence

sys.dont_write_bytecode = True
sys.path.append(str(pathlib.Path(__file__).resolve().parent.parent))

import older
from inputs import INPUTS, Case, script_of
from made import families
from program import BUILD, LIMIT, TOP, Ended, is_fresh, run_sources
from reports import differences
from scripts import Script, scripts

FILE_BUILD = TOP / "crates/piql_file/out/piql_file"
# So many scripts are run by one build of the sources.
CASES = 300
SHOWN = 20


def run_words(words: Sequence[str], script: bytes) -> Ended:
    try:
        done = subprocess.run([*words, "run"], input=script, capture_output=True, timeout=LIMIT)
    except subprocess.TimeoutExpired:
        return Ended(None, b"")
    return Ended(done.returncode, done.stdout, done.stderr)


def runs(words: Sequence[str] | None, made: Iterable[Script]) -> Iterator[tuple[Script, Ended]]:
    """Each script with how it ends; those of the sources many at a time."""
    if words:
        yield from ((script, run_words(words, script.text())) for script in made)
        return
    left = iter(made)
    while some := list(itertools.islice(left, CASES)):
        yield from zip(some, run_sources([script.text() for script in some]))


def flaws(script: Script, ended: Ended) -> list[str]:
    """What differs in a run over an empty store, its status among it."""
    status = 1 if any(wanted.end.startswith("refused") for wanted in script.wanted) else 0
    found = [] if ended.status == status else [f"status {ended.status}, not {status}: {ended.errors.decode()}"]
    return found + differences(ended.output, "open defs 0 ", script.statements, script.wanted)


def made_cases(words: Sequence[str] | None, every: int) -> list[str]:
    """Runs the made cases, and tells their figures."""
    made = (script for family in families() for script in scripts(family, every))
    found, counts = [], {"scripts": 0, "queries": 0, "refused": 0, "runs": 0, "pages": 0}
    for script, ended in runs(words, made):
        found += flaws(script, ended)
        counts["scripts"] += 1
        for name in ("queries", "refused", "runs", "pages"):
            counts[name] += getattr(script, name)
    print("made cases: " + ", ".join(f"{count:,} {name}" for name, count in counts.items()) + f", {len(found)} differ")
    return found


def listed_case(name: str, cases: Sequence[Case], words: Sequence[str] | None) -> list[str]:
    """Runs the statements of a list as one script."""
    own = Script(*script_of(cases))
    found = [flaw for script, ended in runs(words, [own]) for flaw in flaws(script, ended)]
    print(f"{name}: {len(own.statements)} statements, {len(found)} differ")
    return found


def command_line() -> argparse.Namespace:
    words = argparse.ArgumentParser(description=__doc__, formatter_class=argparse.RawDescriptionHelpFormatter)
    words.add_argument("--engine", type=shlex.split)
    words.add_argument("--files", type=shlex.split)
    words.add_argument("--every", type=int, default=1)
    return words.parse_args()


def main() -> None:
    given = command_line()
    engine = given.engine or ([str(BUILD)] if is_fresh(BUILD) else None)
    files = given.files or ([str(FILE_BUILD)] if is_fresh(FILE_BUILD) else None)
    found = made_cases(engine, given.every)
    found += listed_case("names of soft words", older.NAMED, engine)
    found += listed_case("bad input", INPUTS, engine)
    if files:
        found += older.opened_store(files)
    else:
        print("the store of before: left out, there is no build of piql_file")
    print("\n".join(found[:SHOWN]), end="\n" if found else "")
    name = shlex.join(engine) if engine else "the sources, not proved"
    print(f"differences={len(found)} program={name}")
    sys.exit(1 if found else 0)


if __name__ == "__main__":
    main()
