"""What differs between the reports that a program writes and those that are wanted."""

import re
from collections.abc import Sequence
from dataclasses import dataclass

from scripts import Wanted

END = re.compile(r"(\d+) ((?:ok|refused)\b.*) bound (\d+) (\d+) used (\d+) (\d+)")


@dataclass(frozen=True)
class Report:
    number: int
    end: str
    rows: list[str]
    is_within: bool


def reports_of(output: bytes) -> list[Report]:
    """The reports in an output, with the lines of rows and of definitions."""
    found, rows = [], []
    for line in output.decode(errors="replace").split("\n"):
        if end := END.fullmatch(line):
            operations, entries, used_operations, used_entries = map(int, end.groups()[2:])
            is_within = used_operations <= operations and used_entries <= entries
            found.append(Report(int(end[1]), end[2], rows, is_within))
            rows = []
        elif line.startswith(("row ", "def ")):
            rows.append(line)
    return found


def differences(output: bytes, opening: str, statements: Sequence[str], wanted: Sequence[Wanted]) -> list[str]:
    """What differs, each with its statement. The output has to begin with the opening's words."""
    found = [] if output.startswith(opening.encode()) else ["another opening"]
    reports = reports_of(output)
    if len(reports) != len(wanted):
        found.append(f"{len(reports)} reports of {len(wanted)} statements")
    for number, (report, statement, want) in enumerate(zip(reports, statements, wanted), 1):
        if (report.number, report.end, report.rows) != (number, want.end, want.rows):
            found.append(f"{statement}\n  wanted  {want.rows} {want.end}\n  written {report.rows} {report.end}")
        if not report.is_within:
            found.append(f"{statement}\n  used more than its bound")
    return found
