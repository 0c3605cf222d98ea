"""What a server has counted, and what the store has by name: of statements their kinds, of refusals their numbers."""

import re
import time
from collections import Counter
from typing import NamedTuple

from ..reports import DefinitionLine, IndexLine, read_report

DEFINITIONS, INDEXES = 256, 16
NAMED = re.compile(r"(?:CREATE TABLE|CREATE COUNTER|ALTER TABLE|PREPARE) ([a-z_][a-z0-9_]*)")
TABLE = re.compile(r"CREATE TABLE ([a-z_][a-z0-9_]*)")
ENDING = re.compile(r"(?: refused (E\d\d\d)[^\n]*?)? bound (\d+) (\d+) used (\d+) (\d+)\n\Z")


class Ending(NamedTuple):
    """The last line of a report: the number of a refusal, and operations and entries, at most and used."""

    refusal: str
    bound: str
    used: str


def ending_of(report: str) -> Ending:
    """The last line of a report. The values in the lines before it are left alone."""
    start = report.rfind("\n", 0, -1) + 1
    found = ENDING.search(report, start)
    if found is None:
        return Ending("", "", "")
    return Ending(found[1] or "", f"{found[2]} {found[3]}", f"{found[4]} {found[5]}")


class Catalog(NamedTuple):
    """The names that the store has, its tables in their order, how many definitions, and the indexes of each table."""

    names: frozenset[str] = frozenset()
    tables: tuple[str, ...] = ()
    definitions: int = 0
    indexes: dict[str, int] = {}


def read_catalog(report: str) -> Catalog:
    """What SHOW tells of a store."""
    lines = read_report(report).lines
    texts = [line.text for line in lines if isinstance(line, DefinitionLine)]
    names = frozenset(found[1] for text in texts if (found := NAMED.match(text)))
    tables = tuple(found[1] for text in texts if (found := TABLE.match(text)))
    indexes = Counter(line.table for line in lines if isinstance(line, IndexLine))
    return Catalog(names, tables, len(texts), dict(indexes))


class Figures:
    """Counts since the server began. Each is written by one thread alone."""

    def __init__(self) -> None:
        self.began, self.since = time.monotonic(), time.time()
        self.catalog = Catalog()
        self.statements: Counter[str] = Counter()
        self.refusals: Counter[str] = Counter()
        # The statuses with which runs of the engine ended, and how many runs were begun.
        self.ends: Counter[int] = Counter()
        self.runs = 0
        self.seconds = 0.0
        self.slow = 0
        self.limits: Counter[str] = Counter()
        self.clients_refused: Counter[str] = Counter()
