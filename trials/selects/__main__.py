"""Asks queries at random by SELECT, and by PREPARE and RUN, and compares what the two are told.

    python3 trials/selects                        1,000 queries, over crates/piql_host/out/piql_host
    python3 trials/selects --times 50 --seed 7    fewer, drawn by another seed
    python3 trials/selects --engine PROGRAM       another build of piql_host

The queries are those of trials/orders, of up to four relations, and those of trials/nulls; of some a few tokens are
changed. Each is asked by SELECT over a store, prepared and run over a copy, and asked by SELECT there again, behind the
index that it may have wanted.

A SELECT has to answer the rows of the RUN in their order, on its bound, without a cursor; with PAGINATE those of the
first page. It has to be refused as the PREPARE is, an E104 at the same token; by E406 with the table exactly where the
PREPARE makes an index; and by E303 where it has a parameter and the PREPARE isn't refused before that. It changes no
pair of the store. The rows are those that trials/nulls gives for its queries.

Then there are stores over which a PREPARE is refused for what a SELECT doesn't ask: 256 definitions, a name that is
taken, an index over too many rows; and one whose table has as many indexes as it may. The last line has the figures;
the exit status is 0 where nothing differs.
"""

import pathlib
import random
import sys
from collections import Counter as Tally

sys.dont_write_bytecode = True
TOP = pathlib.Path(__file__).resolve().parents[2]
FOLDERS = ("drivers/python", "trials", "trials/nulls", "trials/selects")
sys.path[:0] = [str(TOP / folder) for folder in FOLDERS]

from asked import Queries, Selected  # noqa: E402 - the modules stand beside, or in trials/
from hosted import run_trial, words_of  # noqa: E402
from piql.hosts import MemoryStore  # noqa: E402
from piql.reports import OpeningLine, Report, read_reports  # noqa: E402
from pairing import Pair, difference  # noqa: E402
from special import SPECIAL, Special  # noqa: E402
from stopping import Ran, copy_of, ran  # noqa: E402


class Differs(Exception):
    """A SELECT that isn't told what a PREPARE and a RUN are."""


def told(script: str, run: Ran) -> list[Report]:
    """The reports of a script, whose run ends with 0 or 1."""
    if run.status not in (0, 1):
        raise Differs(f"{script}: {run}")
    opening, *reports = read_reports(run.text)
    assert isinstance(opening, OpeningLine)
    return [report for report in reports if isinstance(report, Report)]


def reports_of(engine: str, store: MemoryStore, script: str) -> list[Report]:
    """The reports of a script over a store."""
    return told(script, ran(engine, store, script))


def defined(engine: str, script: str, store: MemoryStore) -> MemoryStore:
    """The store behind a script of definitions and rows, none of which is refused."""
    if any(report.is_refused() for report in reports_of(engine, store, script)):
        raise Differs(f"a refusal in {script}")
    return store


def selected(engine: str, store: MemoryStore, text: str) -> Report:
    """The report of a SELECT, which changes nothing of the store."""
    pairs = dict(store.values)
    run = ran(engine, store, f"{text};")
    if run.writes or store.values != pairs:
        raise Differs(f"{text}: the store was changed")
    (report,) = told(text, run)
    return report


def paired(engine: str, store: MemoryStore, query: Selected) -> Pair:
    """What a query is told by SELECT, by PREPARE and RUN over a copy of the store, and by SELECT behind these."""
    before = selected(engine, store, query.text)
    copy = copy_of(store)
    (prepared,) = reports_of(engine, copy, f"PREPARE q AS {query.text};")
    if prepared.is_refused():
        return Pair(query.text, before, prepared)
    (run,) = reports_of(engine, copy, f"RUN q ({query.values if query.text == query.parametric else ''});")
    return Pair(query.text, before, prepared, run, selected(engine, copy, query.text))


def check_parameters(engine: str, store: MemoryStore, query: Selected, rows: list[tuple[object, ...]]) -> None:
    """The query with parameters answers the same, and as a SELECT it is refused by E303."""
    prepared, run = reports_of(engine, copy_of(store), f"PREPARE q AS {query.parametric}; RUN q ({query.values});")
    if prepared.is_refused() or run.rows != rows:
        raise Differs(f"{query.parametric}\n  {prepared.ending} {run.rows}, and not {rows}")
    refused = selected(engine, store, query.parametric).end.refusal
    if refused != ("E303",):
        raise Differs(f"{query.parametric}: {refused}, and not E303")


def check(engine: str, store: MemoryStore, query: Selected) -> str:
    """How a query is told by SELECT: `rows`, or the code of its refusal."""
    pair = paired(engine, store, query)
    if what := difference(pair, query.rows):
        raise Differs(f"{query.text}\n  {what}")
    if pair.run is not None and query.parametric != query.text:
        check_parameters(engine, store, query, pair.run.rows)
    refusal = pair.before.end.refusal
    return refusal[0] if refusal else "rows"


def check_special(engine: str, special: Special) -> None:
    """What a store is told where a PREPARE is refused for what a SELECT doesn't ask."""
    store = defined(engine, special.script, special.make())
    for text, wanted_prepare, wanted_select in special.queries:
        found = selected(engine, store, text)
        (prepared,) = reports_of(engine, copy_of(store), f"PREPARE {special.name} AS {text};")
        both = " ".join(prepared.end.refusal), " ".join(found.end.refusal) or str(found.rows)
        if both != (wanted_prepare, wanted_select):
            raise Differs(f"{text}\n  {both}, and not {wanted_prepare, wanted_select}")


def try_drawn(engine: str, times: int, seed: int) -> Tally[str]:
    """How many queries were told what."""
    queries = Queries(random.Random(seed))
    stores = [defined(engine, source.script, MemoryStore()) for source in queries.sources]
    return Tally(check(engine, stores[query.place], query) for query in queries.all(times))


def main() -> int:
    given = words_of("selects", __doc__, "how many queries are asked").parse_args()

    def trial() -> str:
        for special in SPECIAL:
            check_special(given.engine, special)
        figures = try_drawn(given.engine, given.times, given.seed)
        parts = ", ".join(f"{count} {what}" for what, count in sorted(figures.items()))
        return f"{given.times} queries, seed {given.seed}: {parts}; none differs"

    return run_trial("selects", given.engine, trial, Differs)


if __name__ == "__main__":
    sys.exit(main())
