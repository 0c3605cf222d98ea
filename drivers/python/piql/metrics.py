"""What a server tells of itself in the text format of Prometheus: at most 300 series, whatever the store has."""

import re
from typing import NamedTuple

Told = dict[str, object]
LABEL = re.compile(r"[A-Za-z0-9_-]{1,64}")
# So many values of a label have a series of their own, and the others have one together.
MOST_LABELS = {"statement": 16, "number": 48, "limit": 16, "status": 48, "table": 64}
OTHERS = "others"


class Metric(NamedTuple):
    """A metric: its name, whether it only grows, the name of its label if it has one, and what it says."""

    name: str
    grows: bool
    label: str
    says: str


METRICS = {
    "seconds": Metric("piql_up_seconds", False, "", "Since when the server is there."),
    "clients": Metric("piql_clients", False, "", "Clients that are connected."),
    "clients_most": Metric("piql_clients_most", False, "", "Clients that may be connected."),
    "clients_refused": Metric("piql_clients_refused_total", True, "", "Clients that weren't taken."),
    "waiting": Metric("piql_waiting", False, "", "Statements that wait for their turn."),
    "statements": Metric("piql_statements_total", True, "statement", "Statements that had their report."),
    "refusals": Metric("piql_refusals_total", True, "number", "Statements that were refused."),
    "slow": Metric("piql_slow_total", True, "", "Statements that took longer than --slow."),
    "limits": Metric("piql_limits_total", True, "limit", "Statements that met a limit of time or of rows."),
    "busy_seconds": Metric("piql_busy_seconds_total", True, "", "For how long statements were at hand."),
    "engine_runs": Metric("piql_engine_runs_total", True, "", "Runs of the engine that were begun."),
    "engine_ends": Metric("piql_engine_ends_total", True, "status", "Runs that ended within a statement."),
    "log_bytes": Metric("piql_log_bytes", False, "", "How long the log of the store's file is."),
    "revision": Metric("piql_revision", False, "", "The revision of a store in a cluster."),
    "definitions": Metric("piql_definitions", False, "", "Definitions that the store has."),
    "definitions_most": Metric("piql_definitions_most", False, "", "Definitions that a store may have."),
    "indexes": Metric("piql_indexes", False, "table", "Indexes of a table."),
    "indexes_most": Metric("piql_indexes_most", False, "", "Indexes that a table may have."),
}
AT_HAND = Metric("piql_at_hand_seconds", False, "", "For how long the statement at hand is.")
LEASE = Metric("piql_lease_held", False, "", "Whether the lease of a store in a cluster is held.")
ENGINE = Metric("piql_engine_open", False, "", "Whether the store is open.")


def number_of(value: object) -> float | int:
    """A number as it is told; what is none is 0."""
    return value if isinstance(value, (int, float)) else 0


def series(metric: Metric, value: object) -> list[str]:
    """The lines of a metric."""
    head = [f"# HELP {metric.name} {metric.says}", f"# TYPE {metric.name} {'counter' if metric.grows else 'gauge'}"]
    if not metric.label:
        return [*head, f"{metric.name} {number_of(value)}"]
    counts: dict[str, float | int] = {}
    for label, count in value.items() if isinstance(value, dict) else ():
        named = LABEL.fullmatch(str(label)) and (len(counts) < MOST_LABELS[metric.label] or str(label) in counts)
        name = str(label) if named else OTHERS
        counts[name] = counts.get(name, 0) + number_of(count)
    return head + [f'{metric.name}{{{metric.label}="{name}"}} {count}' for name, count in counts.items()]


def metrics(told: Told) -> list[str]:
    """The lines of all metrics."""
    at_hand, lease = told.get("at_hand"), told.get("lease")
    found = [line for key, metric in METRICS.items() if told.get(key) is not None for line in series(metric, told[key])]
    found += series(AT_HAND, at_hand.get("seconds") if isinstance(at_hand, dict) else 0)
    found += series(ENGINE, int(told.get("engine") == "open"))
    return found + (series(LEASE, int(bool(lease.get("held")))) if isinstance(lease, dict) else [])
