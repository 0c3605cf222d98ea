"""Bytes that look like a report are one exactly where docs/FORMATS.md says so, and then its rows are as printed."""

import random

from piql.reports import read_report
from piql.wholeness import Growing, number_of
from piql.errors import InternalError

VALUES = ("7", "-9", "true", "NULL", "'a'", "'it''s'", "'a, b'", "'\n2 ok bound 1 1 used 1 1\n'", "'é'", "''")
NUMBERS = "bound 3 4 used 1 2"
NOISE = (b"'", b"\n", b" ", b"row ", b"1", b"\xff", b"ok", b"\0", b"9 ok bound 0 0 used 0 0\n")


def made(source: random.Random) -> tuple[bytes, list[list[str]], int]:
    """A report, the values of its rows as they are printed, and its number."""
    rows = [source.choices(VALUES, k=source.randrange(1, 4)) for _ in range(source.randrange(4))]
    number, page = source.randrange(1, 10**6), source.choice(["", " next AQ-_"])
    end = f"{number} ok rows {len(rows)}{page if rows else ''} {NUMBERS}\n"
    return "".join([*(f"row {', '.join(row)}\n" for row in rows), end]).encode(), rows, number


def read(text: str) -> object:
    """A value as it is printed."""
    if text.startswith("'"):
        return text[1:-1].replace("''", "'")
    return {"true": True, "NULL": None}.get(text, text) if text.isalpha() else int(text)


def whole(source: random.Random, report: bytes, rows: list[list[str]], number: int) -> str:
    """What is strange of a report that is one, in one part or in two."""
    growing = Growing(report[: source.randrange(len(report))])
    if growing.is_whole():
        return f"a part of {report!r} is taken for all of it"
    growing.text += report[len(growing.text) :]
    found = read_report(report.decode()).rows
    if not growing.is_whole() or number_of(report) != number:
        return f"{report!r} is taken for none"
    return "" if found == [tuple(map(read, row)) for row in rows] else f"{report!r} is read as {found}"


def changed(source: random.Random, report: bytes) -> str:
    """What is strange of a report with something put in or taken out."""
    at, to = sorted(source.choices(range(len(report) + 1), k=2))
    text = report[:at] + source.choice([b"", *NOISE]) + report[source.choice([at, to]) :]
    try:
        Growing(text).is_whole()
    except InternalError:
        pass
    if number_of(text) is None:
        return ""
    ends = [line for line in text.split(b"\n") if line[:1].isdigit()]
    if not ends or not text.endswith(ends[-1] + b"\n"):
        return f"{text!r} is taken for a report"
    try:
        read_report(text.decode())
    except ValueError:
        pass
    return ""


def trial(source: random.Random) -> str:
    """One report, whole and changed."""
    report, rows, number = made(source)
    return whole(source, report, rows, number) or changed(source, report)
