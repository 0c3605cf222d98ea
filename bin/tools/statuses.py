"""The statuses that a command ends with. What those of a run say stands in the Python package."""

from piql.statuses import MEANINGS

REFUSED, USAGE, WRITE_FAULT, STORE_FAULT, NO_PROGRAM = 1, 2, 4, 5, 70
BRIEFLY = """\
statuses: 0 all went well, 1 a statement was refused, 2 wrong words, 3 a read of the script failed, 4 a write of the
  reports failed, 5 a call of the store failed, 6 the store is damaged, 7 no memory, 8 the script is too long,
  70 there is no program to run"""


def meaning(name: str, status: int) -> str | None:
    """A line for a run that ended with this status, where there is something to tell. Below 0 it is a signal's."""
    if status < 0:
        return f"{name}: stopped by signal {-status}"
    return f"{name}: ended with status {status}: {MEANINGS[status]}" if status in MEANINGS else None
