"""Tables, queries, added columns and counters, read from the canonical texts that SHOW prints."""

from collections.abc import Callable
from typing import NamedTuple

from .reports import DefinitionLine, Value
from .scripts import Token, tokens
from .values import read_literal


class Column(NamedTuple):
    """A column: its type is INT, BOOL or TEXT, its size the most bytes of a TEXT. An added one has a default."""

    name: str
    type: str
    size: int | None
    nullable: bool
    is_added: bool = False
    default: Value = None


class Table(NamedTuple):
    """A table with its key."""

    name: str
    columns: tuple[Column, ...]
    key: tuple[str, ...]
    text: str

    def column(self, name: str) -> Column:
        """The column of this name."""
        return next(column for column in self.columns if column.name == name)

    def with_column(self, column: Column) -> "Table":
        """The table with one column more."""
        return self._replace(columns=(*self.columns, column))


class Added(NamedTuple):
    """A column that an ALTER TABLE adds to a table."""

    table: str
    column: Column
    text: str

    @property
    def name(self) -> str:
        """The table's name, a point and the column's, as no table and no query is called."""
        return f"{self.table}.{self.column.name}"


class Query(NamedTuple):
    """A query: the columns that it selects, as alias and column, its relations and how many parameters it has."""

    name: str
    selected: tuple[tuple[str, str], ...]
    relations: tuple[tuple[str, str], ...]
    params: int
    pages: bool
    text: str

    def select(self) -> str:
        """Its text behind `PREPARE name AS`."""
        return self.text[len(f"PREPARE {self.name} AS ") :]


class Counter(NamedTuple):
    """A counter: its table and the columns whose values are a group."""

    name: str
    table: str
    columns: tuple[str, ...]
    text: str


Definition = Table | Query | Added | Counter


class Schema(NamedTuple):
    """All definitions of a store, in order."""

    definitions: tuple[Definition, ...]

    def tables(self) -> dict[str, Table]:
        """The tables by their names, with the columns that were added. A table's text is that of its CREATE TABLE."""
        found: dict[str, Table] = {}
        for it in self.definitions:
            if isinstance(it, Table):
                found[it.name] = it
            elif isinstance(it, Added):
                found[it.table] = found[it.table].with_column(it.column)
        return found

    def queries(self) -> dict[str, Query]:
        """The queries by their names."""
        return {it.name: it for it in self.definitions if isinstance(it, Query)}

    def counters(self) -> dict[str, Counter]:
        """The counters by their names."""
        return {it.name: it for it in self.definitions if isinstance(it, Counter)}

    def columns_of(self, query: Query) -> list[tuple[str, Column]]:
        """The selected columns with their names, which have the alias where two columns share theirs."""
        tables, aliases = self.tables(), dict(query.relations)
        names = [column for _, column in query.selected]
        return [
            (name if names.count(name) == 1 else f"{alias}.{name}", tables[aliases[alias]].column(name))
            for alias, name in query.selected
        ]


def names_behind(found: list[Token], at: int) -> tuple[tuple[str, ...], int]:
    """The names of a list in parentheses, and the place behind it."""
    end = next(i for i in range(at, len(found)) if found[i].is_mark(")"))
    return tuple(token.text for token in found[at:end] if token.kind == "word"), end + 1


def columns_behind(table: Table, *words: str) -> list[tuple[tuple[str, ...], str]]:
    """For each place of a table where these words stand, the columns behind them, and the token behind REFERENCES."""
    found, clauses = tokens(table.text), []
    for at in range(len(found) - len(words)):
        if all(token.is_word(word) for token, word in zip(found[at:], words)):
            begin = next(i for i in range(at, len(found)) if found[i].is_mark("("))
            names, end = names_behind(found, begin + 1)
            clauses.append((names, found[end + 1].text if found[end].is_word("REFERENCES") else ""))
    return clauses


def limits_of(table: Table) -> list[tuple[int, tuple[str, ...]]]:
    """The limits of a table, each with how many rows may have the same values in its columns."""
    found = tokens(table.text)
    numbers = [int(found[i + 2].text) for i in range(len(found)) if found[i].is_word("CARDINALITY")]
    return list(zip(numbers, (names for names, _ in columns_behind(table, "CARDINALITY", "LIMIT"))))


def read_column(found: list[Token], at: int) -> tuple[Column, int]:
    """A column of CREATE TABLE or ALTER TABLE, and the place behind it."""
    name, type_name = found[at].text, found[at + 1].text
    at += 2
    size = None
    if type_name == "TEXT":
        size, at = int(found[at + 1].text), at + 3
    nullable = found[at].text.upper() == "NULL"
    return Column(name, type_name, size, nullable), at + nullable


def read_table(text: str) -> Table:
    """A table of its canonical text."""
    found = tokens(text)
    at, columns = 4, []
    while not found[at].is_word("PRIMARY"):
        column, at = read_column(found, at)
        columns.append(column)
        at += 1
    key, _ = names_behind(found, at + 2)
    return Table(found[2].text, tuple(columns), key, text)


def read_added(text: str) -> Added:
    """An added column of its canonical text."""
    found = tokens(text)
    column, at = read_column(found, 5)
    default = read_literal(found[at + 1].text)
    return Added(found[2].text, column._replace(is_added=True, default=default), text)


def read_counter(text: str) -> Counter:
    """A counter of its canonical text."""
    found = tokens(text)
    columns, _ = names_behind(found, 6)
    return Counter(found[2].text, found[4].text, columns, text)


def place_of(found: list[Token], *words: str) -> int:
    """The place of the first of these keywords, or the end."""
    return next((i for i, token in enumerate(found) if token.is_word(*words)), len(found))


def read_query(text: str) -> Query:
    """A query of its canonical text."""
    found = tokens(text)
    begin, middle = place_of(found, "SELECT") + 1, place_of(found, "FROM")
    end = place_of(found, "WHERE", "ORDER", "LIMIT", "PAGINATE")
    dots = [i for i in range(begin, middle) if found[i].is_mark(".")]
    selected = tuple((found[i - 1].text, found[i + 1].text) for i in dots)
    ases = [i for i in range(middle, end) if found[i].is_word("AS")]
    relations = tuple((found[i + 1].text, found[i - 1].text) for i in ases)
    params = [int(b.text) for a, b in zip(found, found[1:]) if a.is_mark("[")]
    pages = place_of(found, "PAGINATE") < len(found)
    return Query(found[1].text, selected, relations, max(params, default=0), pages, text)


# By what a canonical text begins with.
READERS: dict[str, Callable[[str], Definition]] = {
    "CREATE TABLE ": read_table,
    "CREATE COUNTER ": read_counter,
    "PREPARE ": read_query,
    "ALTER TABLE ": read_added,
}


def read_definition(text: str) -> Definition:
    """A definition of its canonical text."""
    return next(read for head, read in READERS.items() if text.startswith(head))(text)


def read_schema(definitions: list[DefinitionLine]) -> Schema:
    """The schema that SHOW lists."""
    return Schema(tuple(read_definition(line.text) for line in definitions))
