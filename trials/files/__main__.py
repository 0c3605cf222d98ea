"""Tries piql_file on real files: what it refuses, a full disk, kills, syncs that fail, losses of power, and other versions.

    python3 trials/files                  all of it but what needs an older program
    python3 trials/files refusals losses  these trials alone
    python3 trials/files --program FILE   another build than crates/piql_file/out/piql_file
    python3 trials/files --older FILE     the program of an earlier version: each opens what the other left, whole and killed
    python3 trials/files --seed N         other statements, and other losses

It is no part of the gate. It ends with status 0 where all went as it must, and else at the first case that did not.
"""

import sys

sys.dont_write_bytecode = True

import argparse
import os
import pathlib
import random
import shutil
import tempfile
from collections.abc import Callable
from dataclasses import dataclass

import full
import losses
import recorded
import refusals
import statements
import syncs
from common import BUILD, answers
from losses import Trial, tried
from statements import Case


@dataclass(frozen=True)
class Given:
    """What the words name."""

    program: pathlib.Path
    older: pathlib.Path | None
    folder: pathlib.Path
    chance: random.Random
    writes: int
    images: int
    jobs: int


def trial_of(given: Given, writer: pathlib.Path, opener: pathlib.Path, cases: list[Case]) -> Trial:
    library = recorded.build(given.folder)
    return Trial(writer, opener, library, given.folder, {case.name: case for case in cases})


def say(what: str, counts: dict[str, int]) -> None:
    """Tells how many files were opened again, and what stood there. `both` are moments between two statements."""
    places = ", ".join(f"{counts[place]} {place}" for place in ("before", "behind", "both") if counts[place])
    print(f"{what}: {sum(counts.values())} files opened again, none strange: {places}", flush=True)


def try_losses(given: Given) -> None:
    """Each case is killed before each call, fails at each sync, and loses parts of what wasn't synced."""
    cases = statements.cases(given.program, given.folder, given.writes, given.chance)
    trial = trial_of(given, given.program, given.program, cases)
    for case in cases:
        _, steps = recorded.run(given.program, trial.library, case, given.folder / "whole.db")
        chance = given.chance
        say(f"{case.name}, killed at each call", tried(trial, losses.kills(case, steps), given.jobs))
        say(f"{case.name}, each sync failed", tried(trial, losses.failed_syncs(case, steps), given.jobs))
        images = losses.lost(case, steps, given.images, chance)
        say(f"{case.name}, writes lost", tried(trial, images, given.jobs))
        failed = losses.lost_by_failures(trial, case, steps, given.images, chance)
        say(f"{case.name}, writes lost behind a failed sync", tried(trial, failed, given.jobs))


def try_versions(given: Given, writer: pathlib.Path, opener: pathlib.Path, way: str) -> None:
    """What a version left, killed before each call and whole, is opened by the other, which goes on with it."""
    cases = statements.cases(writer, given.folder, given.writes, given.chance)
    trial = trial_of(given, writer, opener, cases)
    for case in cases:
        _, steps = recorded.run(writer, trial.library, case, given.folder / "whole.db")
        say(f"{case.name}, {way}, killed at each call", tried(trial, losses.kills(case, steps), given.jobs))
        answers(opener, given.folder / "whole.db", b"SHOW;\n")


def try_older(given: Given) -> None:
    if given.older is None:
        print("older: no program of an earlier version was given", flush=True)
        return
    try_versions(given, given.older, given.program, "by the earlier version")
    try_versions(given, given.program, given.older, "opened by the earlier version")


def try_refusals(given: Given) -> None:
    refusals.try_all(given.program, given.folder)


def try_full(given: Given) -> None:
    full.try_all(given.program, given.folder)


def try_syncs(given: Given) -> None:
    for program in filter(None, (given.older, given.program)):
        syncs.tell(program, given.folder)


TRIALS: dict[str, Callable[[Given], None]] = {
    "refusals": try_refusals,
    "full": try_full,
    "losses": try_losses,
    "older": try_older,
    "syncs": try_syncs,
}


def copied(program: pathlib.Path, folder: pathlib.Path, name: str) -> pathlib.Path:
    """A copy of a program, which every user may run."""
    if not os.access(program, os.X_OK):
        sys.exit(f"files: there is no program {program}; bin/prove piql_file builds it")
    copy = folder / name
    shutil.copy(program, copy)
    os.chmod(copy, 0o755)
    return copy


def main() -> None:
    words = argparse.ArgumentParser(description=__doc__, formatter_class=argparse.RawDescriptionHelpFormatter)
    words.add_argument("trials", nargs="*", choices=[*TRIALS, []], default=[])
    words.add_argument("--program", type=pathlib.Path, default=BUILD)
    words.add_argument("--older", type=pathlib.Path)
    words.add_argument("--writes", type=int, default=100, help="statements that change rows (100)")
    words.add_argument("--images", type=int, default=4, help="images behind each call (4)")
    words.add_argument("--jobs", type=int, default=os.cpu_count())
    words.add_argument("--seed", type=int, default=1)
    given = words.parse_args()
    with tempfile.TemporaryDirectory() as name:
        folder = pathlib.Path(name)
        os.chmod(folder, 0o755)
        program = copied(given.program, folder, "piql_file")
        older = copied(given.older, folder, "older") if given.older else None
        found = Given(program, older, folder, random.Random(given.seed), given.writes, given.images, given.jobs)
        for trial in given.trials or TRIALS:
            TRIALS[trial](found)


main()
