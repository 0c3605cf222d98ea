"""Goes through the schedules of clients that write beside each other, and checks the pairs of the store at each moment.

    python3 trials/clients                        each schedule of all cases, and 20,000 that are drawn
    python3 trials/clients --drawn 500 --seed 7   fewer, and others
    python3 trials/clients --cases 'at one key'   only the cases whose names have these words
    python3 trials/clients --whole                plays each schedule of these cases from its beginning to its end
    python3 trials/clients --edit FILE            over a wrong body of mutants/; the trial has to find a breach
    python3 trials/clients --speed 10000          so many writes by 16 clients in turn and by a session

Two clients write once each, at one key and at two keys of one group, over a table with one limit, one index and one
foreign key, for all nine pairs of INSERT, UPDATE and DELETE; one writes beside another that writes the row which it
names; and two make two INSERTs each without an index. Each schedule of these is a path over the moments of its case,
and each step between two moments is checked once. The drawn schedules have three clients with three writes each over
three tables, with NULL, conditions and ADD, and a call that fails, done or not done.

Behind each step: each present row has its key and its entries, no other entry is there but at a key that a client
holds, no group of present rows is above its limit, and the present rows are those before it or what the put made of
them. Each step is one call, with its guard or cap, and says what the pairs show. At the end the present rows are the
effects of what was put, in order, and of a put that failed and shows; what was put was told done, but where a call
failed behind it. `run_clients` leaves and tells the same.

The program is compiled from the sources without a proof and kept in out/. The last line has the figures. The exit
status is 0 where nothing was found; else the first breach is told, and it is 1.
"""

from __future__ import annotations

import argparse
import collections
import pathlib
import sys
import time

sys.dont_write_bytecode = True

from building import NotBuilt, build
from cases import cases
from drawn import drawn_schedules
from pairs import Breach
from player import Player
from speed import compare
from walks import explore, orders

PROGRESS = 1000


def go_through(player: Player, words: str, whole: bool) -> str:
    """Goes through each schedule of the cases of these words."""
    found = moments = steps = played = 0
    for case in cases():
        if words not in case.name:
            continue
        graph = explore(player, case)
        found += graph.count()
        moments += len(graph.moments)
        steps += len(graph.steps)
        if whole:
            for order in orders(graph):
                graph.follow_all(player.play(order, True))
                played += 1
    line = f"{found} schedules over {moments} moments and {steps} steps"
    return f"{line}, {played} of them played whole" if whole else line


def go_through_drawn(player: Player, seed: int, count: int) -> str:
    told: collections.Counter[str] = collections.Counter()
    steps = player.steps
    for number, lines in enumerate(drawn_schedules(player, seed, count), 1):
        told.update(" ".join(line.split()[3 : 5 if " refused " in line else 4]) for line in lines)
        if number % PROGRESS == 0:
            print(f"{number} schedules drawn", file=sys.stderr, flush=True)
    shown = ", ".join(f"{number} {name}" for name, number in sorted(told.items()))
    return f"{count} drawn schedules of {player.steps - steps} steps, in which was told: {shown}"


def arguments() -> argparse.Namespace:
    parser = argparse.ArgumentParser()
    parser.add_argument("--drawn", type=int, default=20_000)
    parser.add_argument("--seed", type=int, default=1)
    parser.add_argument("--cases", default="")
    parser.add_argument("--whole", action="store_true")
    parser.add_argument("--edit", type=pathlib.Path)
    parser.add_argument("--engine", type=pathlib.Path)
    parser.add_argument("--speed", type=int)
    return parser.parse_args()


def main() -> int:
    words = arguments()
    began = time.monotonic()
    try:
        program = words.engine or build(words.edit)
    except NotBuilt as error:
        print(f"clients: {error}", file=sys.stderr)
        return 70
    if words.speed:
        print(compare(program, words.speed))
        return 0
    player = Player(program)
    try:
        if any(words.cases in case.name for case in cases()):
            print(go_through(player, words.cases, words.whole), flush=True)
        if words.drawn:
            print(go_through_drawn(player, words.seed, words.drawn), flush=True)
    except Breach as breach:
        print(f"clients: {breach}")
        return 1
    finally:
        player.close()
    print(f"{player.orders} orders played, {player.steps} steps, {time.monotonic() - began:.0f} s: no breach")
    return 0


sys.exit(main())
