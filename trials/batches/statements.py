"""What a statement of writes has to report, and the rows and pairs behind it."""

from collections.abc import Sequence
from typing import NamedTuple

from piql.reports import Work

from bounds import bound_of
from effects import Refusal, Rows, made, refused
from layouts import Tables
from pairs import changed_keys, length_of, pairs_of
from writes import Write, batch_text, key_of

LONGEST_CHANGES = 1_048_576


class Statement(NamedTuple):
    """A write, or several that are made as one."""

    writes: tuple[Write, ...]
    is_batch: bool = True

    def text(self) -> str:
        return batch_text(self.writes) if self.is_batch else f"{self.writes[0].text()};"


class Wanted(NamedTuple):
    """How a statement has to end: its refusal, or none; its bound; and the rows behind it."""

    refusal: Refusal
    bound: Work
    rows: Rows


def changes_length(tables: Tables, states: Sequence[Rows], writes: Sequence[Write]) -> int:
    """The length of the code of a batch's changes. The rows before it and behind each of its writes are given."""
    keys: set[bytes] = set()
    for write, before, behind in zip(writes, states, states[1:]):
        table = tables.by_name[write.table]
        key = key_of(table, write)
        keys |= changed_keys(table, key, before[table.name].get(key), behind[table.name].get(key))
    pairs = pairs_of(tables, states[-1])
    return length_of({key: pairs.get(key) for key in keys})


def wanted(tables: Tables, rows: Rows, statement: Statement) -> Wanted:
    """What a statement has to do, whose writes reading lets through."""
    bound = bound_of(tables, statement.writes)
    states = [rows]
    for place, write in enumerate(statement.writes, 1):
        refusal = refused(tables, states[-1], write)
        if refusal:
            return Wanted(("E513", str(place), *refusal) if statement.is_batch else refusal, bound, rows)
        states.append(made(tables, states[-1], write))
    length = changes_length(tables, states, statement.writes) if statement.is_batch else 0
    if length > LONGEST_CHANGES:
        return Wanted(("E512", str(length)), bound, rows)
    return Wanted((), bound, states[-1])
