"""The words of a trial over the program piql_host, and the run of it."""

import argparse
import os
import pathlib
import sys
import time
from collections.abc import Callable

BUILD = pathlib.Path(__file__).resolve().parent.parent / "crates/piql_host/out/piql_host"


def words_of(name: str, description: str | None, drawn: str) -> argparse.ArgumentParser:
    """The words that each such trial has: how many are drawn, by what, and the program."""
    as_written = argparse.RawTextHelpFormatter
    parser = argparse.ArgumentParser(prog=f"trials/{name}", description=description, formatter_class=as_written)
    parser.add_argument("--times", type=int, default=1000, help=drawn)
    parser.add_argument("--seed", type=int, default=1, help="what they are drawn by")
    parser.add_argument("--engine", default=os.environ.get("PIQL_HOST", str(BUILD)), help="the program piql_host")
    return parser


def run_trial(name: str, engine: str, trial: Callable[[], str], wrong: type[Exception]) -> int:
    """Runs a trial and prints what it tells, and its seconds; the exit status."""
    begun = time.monotonic()
    if not os.access(engine, os.X_OK):
        print(f"{name}: there is no program {engine}: bin/prove piql_host makes it", file=sys.stderr)
        return 2
    try:
        told = trial()
    except wrong as found:
        print(f"{wrong.__name__.upper()} {found}")
        return 1
    print(f"{told}; {time.monotonic() - begun:.0f} s")
    return 0
