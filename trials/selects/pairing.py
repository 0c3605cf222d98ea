"""What a SELECT has to be told, where a PREPARE and a RUN of the same query were told something."""

from typing import NamedTuple

from piql.reports import Report
from piql.scripts import tokens
from values import written

HEAD = "PREPARE q AS "
# What comes behind the refusals for parameters, in a PREPARE.
LATER = (("E304",), ("E305",), ("E206", "indexes"))


class Pair(NamedTuple):
    """A query, and what it was told: by SELECT, by PREPARE, by RUN, and by SELECT behind the PREPARE."""

    text: str
    before: Report
    prepared: Report
    run: Report | None = None
    behind: Report | None = None


def has_parameter(text: str) -> bool:
    return any(token.is_mark("[") for token in tokens(text))


def comes_later(refusal: tuple[str, ...]) -> bool:
    """Whether a PREPARE is refused for what is tried behind its parameters, or isn't refused."""
    return not refusal or any(refusal[: len(later)] == later for later in LATER)


def wanted_refusal(pair: Pair) -> tuple[str, ...]:
    """Why a SELECT has to be refused; nothing where it is answered."""
    refusal = pair.prepared.end.refusal
    if has_parameter(pair.text) and comes_later(refusal):
        return ("E303",)
    if refusal[:1] == ("E104",):
        return ("E104", str(int(refusal[1]) - len(HEAD)))
    if refusal:
        return refusal
    indexes = pair.prepared.indexes()
    return ("E406", indexes[0].table) if indexes else ()


def of_answer(report: Report, run: Report, bound: object) -> str:
    """What is wrong with the report of a SELECT that is answered."""
    end = report.end
    if end.refusal or end.cursor or end.rows != len(report.rows):
        return f"it ends with {report.ending}"
    if report.rows != run.rows:
        return f"the rows {report.rows}, and the RUN's {run.rows}"
    if end.bound != bound or run.end.bound != bound:
        return f"the bound {end.bound}, and the query's {bound}"
    if end.used.operations > end.bound.operations or end.used.entries > end.bound.entries:
        return f"more was used than its bound: {report.ending}"
    return ""


def of_refusal(report: Report, wanted: tuple[str, ...]) -> str:
    """What is wrong with the report of a SELECT that is refused."""
    end = report.end
    if end.refusal != wanted or report.rows or end.bound != (0, 0) or end.used != (0, 0):
        return f"{report.ending.strip()}, and not {' '.join(wanted)}"
    return ""


def printed(report: Report) -> list[str]:
    return [f"row {', '.join(map(written, row))}" for row in report.rows]


def difference(pair: Pair, rows: list[str] | None) -> str:
    """What differs, or nothing. The rows are those that the rules give, if they are known."""
    wanted = wanted_refusal(pair)
    if wanted:
        found = of_refusal(pair.before, wanted)
        if found or wanted[0] != "E406":
            return found
    if pair.run is None or pair.behind is None:
        return "" if wanted else f"it is answered, and the PREPARE is refused: {pair.prepared.ending}"
    bound = pair.prepared.queries()[0].bound
    for report in (pair.behind,) if wanted else (pair.before, pair.behind):
        if found := of_answer(report, pair.run, bound):
            return found
        if rows is not None and printed(report) != rows:
            return f"the rows {printed(report)}, and by the rules {rows}"
    return ""
