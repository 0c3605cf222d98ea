"""Tries what stands round the engine with what nobody would write: values, reports, answers of a server or of a member
of etcd, files, a server's clients.

    python3 trials/outside                 each trial, for 20 seconds
    python3 trials/outside values          one of them: values, reports, answers, gateway, spoilt, server
    python3 trials/outside --seconds 300 --seed 7

Each trial is a module with a function `trial`, which draws a case and tells what is strange of it, or nothing. The
last line of each has its figures, and a strange case its seed. The exit status is 0 where nothing was strange.
"""

import argparse
import importlib
import pathlib
import random
import sys
import time

sys.dont_write_bytecode = True
TOP = pathlib.Path(__file__).resolve().parents[2]
sys.path[:0] = [str(TOP / "drivers/python"), str(TOP / "drivers/python/tests")]

TRIALS = ("values", "reports", "answers", "gateway", "spoilt", "server")
SHOWN = 5


def run(name: str, seconds: float, seed: int) -> int:
    """Draws cases until the time is over; how many of them were strange."""
    trial = importlib.import_module(name).trial
    until, cases, strange = time.monotonic() + seconds, 0, 0
    while time.monotonic() < until:
        told = trial(random.Random(f"{seed} {cases}"))
        strange += bool(told)
        if told and strange <= SHOWN:
            print(f"{name}: case {cases} of seed {seed}: {told}", flush=True)
        cases += 1
    print(f"{name}: {cases} cases, {strange} strange", flush=True)
    return strange


def main() -> int:
    """The command."""
    parser = argparse.ArgumentParser(prog="trials/outside", description=(__doc__ or "").partition("\n")[0])
    parser.add_argument("trials", nargs="*", choices=[[], *TRIALS], default=[], metavar="TRIAL")
    parser.add_argument("--seconds", type=float, default=20.0)
    parser.add_argument("--seed", type=int, default=1)
    given = parser.parse_args()
    return int(sum(run(name, given.seconds, given.seed) for name in given.trials or TRIALS) > 0)


if __name__ == "__main__":
    sys.exit(main())
