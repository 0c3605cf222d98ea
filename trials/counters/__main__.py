"""Stops random writes on tables with counters, each at some call, and compares every counter with the rows.

    python3 trials/counters                       1,000 writes, over crates/piql_host/out/piql_host
    python3 trials/counters --times 50 --seed 7   as many, drawn by another seed
    python3 trials/counters --engine PROGRAM      another build of piql_host

Each write is an INSERT, an UPDATE or a DELETE on one of two tables, with keys that are there or not, and values that
may be NULL, or a batch of up to six of them. It is made once over a copy of the store, which has to report what the rules say, and tells how many calls
it makes. Then it is made over the store, where one of these calls, drawn at random, fails: it is made or it isn't. The
run has to end with status 5 at this call.

The host makes what a statement writes at its last write. So opened again, the store has to have the rows from before
the statement if that one wasn't made, and else those behind it. READ of each group of each counter has to answer how many of these rows are in it, and the store's pairs of
counters have to be just those of these rows. The last line has the figures; the exit status is 0 where nothing is wrong.
"""

import pathlib
import random
import sys
from collections import Counter as Tally
from typing import NamedTuple

sys.dont_write_bytecode = True
TOP = pathlib.Path(__file__).resolve().parents[2]
sys.path[:0] = [str(TOP / "drivers/python"), str(TOP / "trials"), str(TOP / "trials/counters")]

from hosted import run_trial, words_of  # noqa: E402 - the modules stand beside, or in trials/
from pairs import counted_pairs, told_pairs  # noqa: E402
from piql.hosts import MemoryStore  # noqa: E402
from piql.reports import OpeningLine, Report, read_reports  # noqa: E402
from piql.values import quoted  # noqa: E402
from stopping import Ran, Stop, copy_of, ran  # noqa: E402
from tables import COLUMNS, DEFINITIONS, KEYS, LIKES, PEOPLE, Batch, Rows, Statement  # noqa: E402
from tables import drawn_statement, groups, made_by, no_rows, number_of, refused_as  # noqa: E402

STORE_FAULT = 5
GROUPS = list(groups())
READS = "".join(f"READ {group.counter} ({', '.join(map(quoted, group.values))});\n" for group in GROUPS)
LOOK = f"RUN all_people; RUN all_likes;\n{READS}"
# The operations of an opening that finds nothing to make whole.
QUIET = 2


class Wrong(Exception):
    """What a run may not do."""


def expect(holds: bool, what: str) -> None:
    if not holds:
        raise Wrong(what)


class Told(NamedTuple):
    """What a run wrote: how many operations its opening used, and its reports."""

    opening: int
    reports: list[Report]


def read(run: Ran) -> Told:
    opening, *reports = read_reports(run.text)
    assert isinstance(opening, OpeningLine) and all(isinstance(report, Report) for report in reports)
    return Told(opening.used.operations, [report for report in reports if isinstance(report, Report)])


def check_whole(run: Ran, write: Statement, refusal: tuple[str, ...]) -> None:
    """A run of the write to its end: its report is that of the rules, and it uses what was asked of the store."""
    told = read(run)
    expect(run.status == (1 if refusal else 0) and len(told.reports) == 1, f"{write.text()}: {run}")
    end = told.reports[0].end
    expect(end.refusal[: max(len(refusal), 1)] == refusal, f"{write.text()}: {end.refusal}, and not {refusal}")
    expect(end.used <= end.bound and end.used.entries <= end.bound.entries, f"{write.text()}: {end}")
    expect(told.opening + end.used.operations == run.calls, f"{write.text()}: {run.calls} calls, and not {end.used}")


def check_store(engine: str, store: MemoryStore, rows: Rows, what: str) -> int:
    """The store, opened again, answers and holds what these rows give; the operations of its opening."""
    run = ran(engine, store, LOOK)
    told = read(run)
    expect(run.status == 0 and len(told.reports) == 2 + len(GROUPS), f"{what}: {run}")
    for table, report in zip((PEOPLE, LIKES), told.reports):
        found = {row[: KEYS[table]]: row for row in report.rows}
        expect(found == rows[table], f"{what}: the rows {found}, and not {rows[table]}")
    for group, report in zip(GROUPS, told.reports[2:]):
        wanted = [(number_of(rows, group),)]
        expect(report.rows == wanted, f"{what}: {group} is read as {report.rows}, and has {wanted}")
    pairs = told_pairs(store.values.items())
    expect(pairs == counted_pairs(rows), f"{what}: the pairs {pairs}, and not {counted_pairs(rows)}")
    return told.opening


class Trial:
    """One store, over which writes are stopped, and the rows that it has to have."""

    def __init__(self, engine: str, seed: int) -> None:
        self.engine, self.chance = engine, random.Random(seed)
        self.store, self.rows = MemoryStore(), no_rows()
        self.figures: Tally[str] = Tally()
        run = ran(engine, self.store, DEFINITIONS)
        expect(run.status == 0, f"no definitions: {run}")

    def step(self) -> None:
        """Stops one write."""
        write = drawn_statement(self.chance, self.rows)
        refusal = refused_as(self.rows, write)
        behind = self.rows if refusal else made_by(self.rows, write)
        whole = ran(self.engine, copy_of(self.store), write.text())
        check_whole(whole, write, refusal)
        # The last call as often as any other: what is made at it stands.
        call = self.chance.choice((self.chance.randint(1, whole.calls), whole.calls))
        stop = Stop(call, self.chance.random() < 0.8)
        run = ran(self.engine, self.store, write.text(), stop)
        what = f"{write.text()} stopped at {stop}"
        expect((run.status, run.calls) == (STORE_FAULT, stop.call), f"{what}: {run}")
        is_made = 0 < whole.writes == run.writes
        self.rows = behind if is_made else self.rows
        opening = check_store(self.engine, self.store, self.rows, what)
        self.figures["refused" if refusal else "made" if is_made else "not made"] += 1
        self.figures["made whole by the opening"] += opening > QUIET
        self.figures["batches"] += isinstance(write, Batch)

    def tell(self) -> str:
        parts = [f"{number} {what}" for what, number in sorted(self.figures.items())]
        sizes = [f"{len(rows)} {table}" for table, rows in self.rows.items()]
        return f"{', '.join(parts)}; at the end {' and '.join(sizes)}"


def main() -> int:
    given = words_of("counters", __doc__, "how many writes are stopped").parse_args()

    def told() -> str:
        trial = Trial(given.engine, given.seed)
        for _ in range(given.times):
            trial.step()
        reads = given.times * len(GROUPS)
        return f"{given.times} writes, seed {given.seed}: {trial.tell()}; {reads:,} READs, none wrong"

    return run_trial("counters", given.engine, told, Wrong)


if __name__ == "__main__":
    sys.exit(main())
