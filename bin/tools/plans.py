"""Reading plans: the lines that piql_plan writes, as docs/FORMATS.md has them."""

import re
from collections.abc import Iterator
from typing import NamedTuple

from piql.reports import Report, Work, cut_lines, read_reports

NODE = re.compile(
    r"node (?P<kind>\w+)"
    r"(?: (?P<alias>[a-z_]\w*) (?P<table>\w+))?"
    r"(?: (?P<sequence>(?:key|index \d+) \([^)]*\)))?"
    r"(?: (?P<word>limit|first))?(?: (?P<count>\d+))?"
    r" bound (?P<operations>\d+) (?P<entries>\d+) size (?P<size>\d+)"
)
ROUNDS = re.compile(r"rounds (\d+)")


class Node(NamedTuple):
    """A node: its kind, what it reads, the most that it takes, what it costs for all its inputs, and what it gives."""

    kind: str
    relation: str
    sequence: str
    most: str
    cost: Work
    size: int


class Told(NamedTuple):
    """What is told of a statement: its report, and the plan that it asks for: the nodes, from the innermost on, and the
    rounds."""

    report: Report
    nodes: list[Node]
    rounds: int

    @property
    def cost(self) -> Work:
        """The sum of the nodes."""
        return Work(sum(node.cost.operations for node in self.nodes), sum(node.cost.entries for node in self.nodes))


def read_node(line: str) -> Node:
    """A node's line. A line that is none is a ValueError."""
    found = NODE.fullmatch(line)
    if found is None:
        raise ValueError(f"no node is told so: {line[:200]!r}")
    relation = f"{found['alias']} {found['table']}" if found["alias"] else ""
    most = " ".join(part for part in (found["word"], found["count"]) if part)
    cost = Work(int(found["operations"]), int(found["entries"]))
    return Node(found["kind"], relation, found["sequence"] or "", most, cost, int(found["size"]))


def read_rounds(line: str) -> int | None:
    """The rounds of a plan, where the line tells them."""
    found = ROUNDS.fullmatch(line)
    return int(found[1]) if found else None


def read_plans(text: str) -> Iterator[Told]:
    """What piql_plan told of each statement, in order."""
    nodes: list[Node] = []
    lines: list[str] = []
    rounds = 0
    for line in cut_lines(text):
        if line.startswith("node "):
            nodes.append(read_node(line))
            continue
        told = read_rounds(line)
        if told is not None:
            rounds = told
            continue
        lines.append(line)
        for report in read_reports("\n".join(lines)):
            assert isinstance(report, Report)
            yield Told(report, nodes, rounds)
            nodes, lines, rounds = [], [], 0
