"""Writes, their texts, and batches of them."""

from typing import NamedTuple

from piql.layout import TableLayout
from piql.reports import Row, Value
from piql.values import quoted

ADD = "ADD"


class Cond(NamedTuple):
    """What a column has to be like: a comparison with a value, or `IS NULL`, which has none."""

    column: str
    sign: str
    value: Value = None

    def text(self) -> str:
        return f"{self.column} {self.sign}" + ("" if self.value is None else f" {quoted(self.value)}")


class Set(NamedTuple):
    """A column that is set to a value; or by the word ADD one to which a number is added."""

    column: str
    value: Value
    word: str = "="

    def text(self) -> str:
        return f"{self.column} {self.word} {quoted(self.value)}"


def add(column: str, number: int) -> Set:
    return Set(column, number, ADD)


class Insert(NamedTuple):
    """A row that comes."""

    table: str
    row: Row

    def text(self) -> str:
        return f"INSERT INTO {self.table} VALUES ({', '.join(map(quoted, self.row))})"


class Update(NamedTuple):
    """A row of which columns are set. The columns of its key have their names with it."""

    table: str
    key: tuple[tuple[str, Value], ...]
    sets: tuple[Set, ...]
    conds: tuple[Cond, ...] = ()

    def text(self) -> str:
        return f"UPDATE {self.table} SET {', '.join(it.text() for it in self.sets)}{where(self.key, self.conds)}"


class Delete(NamedTuple):
    """A row that goes."""

    table: str
    key: tuple[tuple[str, Value], ...]
    conds: tuple[Cond, ...] = ()

    def text(self) -> str:
        return f"DELETE FROM {self.table}{where(self.key, self.conds)}"


Write = Insert | Update | Delete


def where(key: tuple[tuple[str, Value], ...], conds: tuple[Cond, ...]) -> str:
    """What stands behind the name of a row's table and what is set."""
    found = " AND ".join(f"{column} = {quoted(value)}" for column, value in key)
    return f" WHERE {found}" + (f" IF {' AND '.join(cond.text() for cond in conds)}" if conds else "")


def batch_text(writes: tuple[Write, ...]) -> str:
    """The statement that makes these writes as one."""
    return f"BATCH {', '.join(write.text() for write in writes)};"


def places_of(table: TableLayout) -> dict[str, int]:
    """The places of the columns of a table, by their names."""
    return {column.name: place for place, column in enumerate(table.columns)}


def key_of(table: TableLayout, write: Write) -> Row:
    """The key of the row that a write is about."""
    if isinstance(write, Insert):
        return tuple(write.row[place] for place in table.key)
    given = dict(write.key)
    return tuple(given[table.columns[place].name] for place in table.key)
