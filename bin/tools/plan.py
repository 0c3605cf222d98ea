"""The plans of a script's queries as a page."""

import argparse
import os
import sys

from piql.refusals import refusal_of
from piql.scripts import place_at, tokens
from tools.kept import NotBuilt
from tools.launch import tell, written, written_of
from tools.picture import Band, page, plan_text
from tools.plans import Told, read_plans
from tools.statuses import NO_PROGRAM, REFUSED
from tools.tell import Script, read_script
from tools.words import Wrong

NAME = "plan"
PROGRAM = "piql_plan"
# The words that a query is defined, told or answered by.
QUERIES = ("PREPARE", "EXPLAIN", "SELECT")


def refused_band(told: Told, head: str, text: str, statement: str) -> Band:
    """A query that is refused, with the reason."""
    fields = told.report.end.refusal
    place = place_at(text, min(int(fields[1]), len(text))) if fields[0] == "E104" else None
    reason = refusal_of(fields, text, place).headline
    return Band(f"{head}: refused", statement, [], f"{' '.join(fields)}: {reason}", True)


def planned_band(told: Told, head: str, statement: str) -> Band:
    """A query with its plan. The bound that is told has to be the sum of the nodes."""
    # A SELECT has no name, and its bound stands at its end alone.
    named = [(it.name, it.bound) for it in told.report.queries()]
    ((name, bound),) = named or [("select", told.report.end.bound)]
    if told.cost != bound:
        raise Wrong(f"the nodes of {name} sum to {told.cost}, and its bound is {bound}", NO_PROGRAM)
    wanted = told.report.indexes()
    indexes = "".join(f"; wants index {it.number} of {it.table} ({', '.join(it.columns)})" for it in wanted)
    return Band(f"{head}: {name}", statement, told.nodes, f"bound: {plan_text(told)}{indexes}", False)


def band_of(told: Told, script: Script) -> Band | None:
    """The band of a statement. One that is neither a query nor refused has none."""
    end = told.report.end
    text = script.piece(end.number).decode(errors="replace")
    found = tokens(text)
    statement = " ".join(text[found[0].start :].split())
    head = f"{end.number}"
    if end.refusal:
        return refused_band(told, head, text, statement)
    return planned_band(told, head, statement) if found[0].is_word(*QUERIES) else None


def read_given(words: list[str]) -> argparse.Namespace:
    parser = argparse.ArgumentParser(prog="bin/plan", description=__doc__)
    parser.add_argument("--lines", metavar="LINES", help="run nothing: this is what piql_plan wrote of the script")
    parser.add_argument("script", metavar="SCRIPT", help="the script")
    return parser.parse_args(words)


def main(words: list[str]) -> int:
    given = read_given(words)
    try:
        text, status = written_of(given.script, given.lines, lambda: written(PROGRAM, [], given.script))
        script = read_script(given.script)
        found = list(read_plans(text))
        bands = [band for told in found if (band := band_of(told, script))]
        print(page(os.path.basename(given.script), bands), end="")
    except (Wrong, NotBuilt, OSError) as error:
        tell(NAME, str(error))
        return error.status if isinstance(error, Wrong) else NO_PROGRAM
    return status if status else REFUSED if any(told.report.is_refused() for told in found) else 0
