"""Makes random batches, and compares each report and all pairs behind it with what the rules give.

    python3 trials/batches                        all of it, over crates/piql_host/out/piql_host
    python3 trials/batches --times 50 --seed 7    fewer statements, drawn by another seed
    python3 trials/batches --stops 5              so many of them are stopped at each of their calls
    python3 trials/batches --engine PROGRAM       another build of piql_host

A statement is a batch of up to twelve writes, or one write. They are INSERTs, UPDATEs and DELETEs on three tables with
foreign keys, limits, counters, added columns and indexes, with conditions and ADD, and with values that may be NULL.
The report has to have the refusal with its place and all of its fields, or none, and the bound. The store has to hold
just the pairs of the rows behind the statement.

Some of the statements are stopped at each of their calls, made and not made, over a host that makes a statement's
writes at the last of them, and over one that makes each as it comes. The pairs then have to be those before the
statement or behind it, by the call; in the second case an opening makes whole what was begun.

And batches have changes of just 1,048,576 bytes, and of one more. The last line has the figures; the exit status is 0
where nothing is wrong.
"""

import pathlib
import random
import sys
from collections import Counter as Tally
from typing import NamedTuple

sys.dont_write_bytecode = True
TOP = pathlib.Path(__file__).resolve().parents[2]
sys.path[:0] = [str(TOP / "drivers/python"), str(TOP / "trials"), str(TOP / "trials/batches")]

import lengths  # noqa: E402 - the modules stand beside, or in trials/
from drawn import TABLES, drawn_statement  # noqa: E402
from effects import Rows, no_rows  # noqa: E402
from hosted import run_trial, words_of  # noqa: E402
from layouts import Tables  # noqa: E402
from pairs import Pairs, pairs_of  # noqa: E402
from piql.hosts import MemoryStore  # noqa: E402
from piql.reports import OpeningLine, Report, read_reports  # noqa: E402
from statements import Statement, Wanted, wanted  # noqa: E402
from stopping import Ran, Stop, copy_of, ran  # noqa: E402

DEFINITIONS, STORE_FAULT = 1, 5
# How many letters of a statement are told.
SHOWN = 2000


class Wrong(Exception):
    """What a run may not do."""


def expect(holds: bool, statement: Statement, what: object) -> None:
    if not holds:
        raise Wrong(f"{statement.text()[:SHOWN]}\n  {what}")


def held(store: MemoryStore) -> Pairs:
    """The pairs of a store without its definitions."""
    return {key: value for key, value in store.values.items() if key[0] != DEFINITIONS}


def defined(engine: str, tables: Tables, rows: Rows) -> MemoryStore:
    """A store with these definitions and rows, whose pairs are put as the formats have them."""
    store = MemoryStore()
    run = ran(engine, store, tables.script())
    if run.status != 0:
        raise Wrong(f"no definitions: {run}")
    for key, value in pairs_of(tables, rows).items():
        store.change(key, value)
    return store


def check_report(run: Ran, statement: Statement, want: Wanted) -> None:
    """A run of a statement to its end: its refusal or none, its bound, and what it used."""
    opening, *reports = read_reports(run.text)
    assert isinstance(opening, OpeningLine)
    expect(run.status == (1 if want.refusal else 0) and len(reports) == 1, statement, run)
    report = reports[0]
    assert isinstance(report, Report)
    end = report.end
    expect(end.refusal == want.refusal, statement, f"{end.refusal}, and not {want.refusal}")
    expect(end.bound == want.bound, statement, f"the bound {end.bound}, and not {want.bound}")
    used = end.used
    expect(used.operations <= end.bound.operations and used.entries <= end.bound.entries, statement, end)
    expect(opening.used.operations + used.operations == run.calls, statement, f"{run.calls} calls, and not {used}")


def check_pairs(store: MemoryStore, pairs: Pairs, statement: Statement, what: object) -> None:
    found = held(store)
    keys = [key.hex() for key in found.keys() | pairs.keys() if found.get(key) != pairs.get(key)]
    expect(not keys, statement, f"{what}: other pairs at {keys[:9]}")


def made_once(engine: str, store: MemoryStore, tables: Tables, rows: Rows, statement: Statement) -> tuple[Ran, Rows]:
    """Makes a statement over the store; the run, and the rows behind it."""
    want = wanted(tables, rows, statement)
    definitions = {key: value for key, value in store.values.items() if key[0] == DEFINITIONS}
    run = ran(engine, store, statement.text())
    check_report(run, statement, want)
    check_pairs(store, pairs_of(tables, want.rows), statement, want.refusal or "made")
    expect(all(store.values.get(key) == value for key, value in definitions.items()), statement, "other definitions")
    return run, want.rows


class Stopped(NamedTuple):
    """A statement that is stopped over copies of a store: its whole run, and the pairs before it and behind it."""

    engine: str
    store: MemoryStore
    statement: Statement
    whole: Ran
    states: tuple[Pairs, Pairs]

    def check(self, stop: Stop, at_once: bool) -> bool:
        """Whether the statement was there behind a stop: the store, opened again, holds all of it or nothing."""
        store = copy_of(self.store)
        run = ran(self.engine, store, self.statement.text(), stop, at_once)
        expect((run.status, run.calls) == (STORE_FAULT, stop.call), self.statement, f"{stop}: {run}")
        # Where each is made as it comes, the first one decides: it is the intent, or all there is.
        is_there = 0 < (self.whole.writes if at_once else 1) <= run.writes
        if not at_once:
            again = ran(self.engine, store, "")
            expect(again.status == 0, self.statement, f"{stop}: opened again {again}")
        check_pairs(store, self.states[is_there], self.statement, stop)
        return is_there

    def check_all(self) -> list[bool]:
        """For each of its calls, made and not made, over both hosts, whether the statement was there behind it."""
        stops = [Stop(call, is_made) for call in range(1, self.whole.calls + 1) for is_made in (False, True)]
        return [self.check(stop, at_once) for stop in stops for at_once in (True, False)]


def try_drawn(engine: str, times: int, stops: int, seed: int) -> str:
    """Random statements, of which some are stopped; their figures."""
    chance, rows = random.Random(seed), no_rows(TABLES)
    store, figures = defined(engine, TABLES, rows), Tally[str]()
    stopping = set(random.Random(seed).sample(range(times), min(stops, times)))
    for number in range(times):
        statement, before = drawn_statement(chance, rows), copy_of(store)
        pairs = pairs_of(TABLES, rows)
        run, rows = made_once(engine, store, TABLES, rows, statement)
        figures["made" if run.status == 0 else "refused"] += 1
        figures["writes"] += len(statement.writes)
        if number in stopping:
            found = Stopped(engine, before, statement, run, (pairs, pairs_of(TABLES, rows))).check_all()
            figures["stops"] += len(found)
            figures["there behind a stop"] += sum(found)
    return ", ".join(f"{count:,} {what}" for what, count in sorted(figures.items()))


def try_lengths(engine: str) -> str:
    """Batches whose changes are as long as they may be, and one byte longer; how many were refused."""
    refused = []
    for case in lengths.cases():
        store = defined(engine, case.tables, case.rows)
        run, _ = made_once(engine, store, case.tables, case.rows, case.statement)
        refused.append(run.status)
    return f"{len(refused)} batches of changes to the last byte, {sum(refused)} refused"


def main() -> int:
    words = words_of("batches", __doc__, "how many statements are made")
    words.add_argument("--stops", type=int, default=30, help="how many of them are stopped at each call")
    given = words.parse_args()

    def trial() -> str:
        print(try_lengths(given.engine), flush=True)
        told = try_drawn(given.engine, given.times, given.stops, given.seed)
        return f"{given.times} statements, seed {given.seed}: {told}; none wrong"

    return run_trial("batches", given.engine, trial, Wrong)


if __name__ == "__main__":
    sys.exit(main())
