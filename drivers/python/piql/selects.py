"""A query as it is written: its relations, predicates and order, with each column's relation. Values are left out."""

from typing import NamedTuple

from .conditions import COMPARISONS
from .schema import Schema, Table
from .scripts import Token, tokens

RANGES = ("<", "<=", ">", ">=")


class Unread(Exception):
    """A text that is no query over these tables."""


class Relation(NamedTuple):
    """A relation of FROM."""

    alias: str
    table: Table


class Ref(NamedTuple):
    """A column of a relation."""

    alias: str
    column: str

    def __str__(self) -> str:
        return f"{self.alias}.{self.column}"


class Predicate(NamedTuple):
    """A test of a column: by an operator against a value or, by `=`, against another column; or by `IS NULL`."""

    left: Ref
    operator: str
    right: Ref | None = None

    def __str__(self) -> str:
        side = self.right or ("" if self.operator == "IS NULL" else "..")
        return f"{self.left} {self.operator} {side}".strip()


class Select(NamedTuple):
    """A query."""

    relations: tuple[Relation, ...]
    predicates: tuple[Predicate, ...]
    order: tuple[Ref, ...]
    stops: bool


class Reader:
    """Goes over the tokens of a query."""

    def __init__(self, found: list[Token], schema: Schema) -> None:
        self.found, self.at, self.tables = found, 0, schema.tables()
        self.relations: list[Relation] = []

    def next(self) -> Token:
        """The token at hand."""
        if self.at >= len(self.found):
            raise Unread
        return self.found[self.at]

    def takes(self, *words: str) -> bool:
        """Whether the token at hand is one of these words, which is then passed."""
        is_it = self.at < len(self.found) and self.found[self.at].is_word(*words)
        self.at += is_it
        return is_it

    def marks(self, mark: str) -> bool:
        """The same of a mark."""
        is_it = self.at < len(self.found) and self.found[self.at].is_mark(mark)
        self.at += is_it
        return is_it

    def name(self) -> str:
        """A name, in small letters."""
        token = self.next()
        if token.kind != "word":
            raise Unread
        self.at += 1
        return token.text.lower()

    def relation(self) -> None:
        """A relation, whose alias may be left out."""
        table = self.tables.get(self.name())
        if table is None:
            raise Unread
        has_alias = self.takes("AS") or self.at < len(self.found) and self.found[self.at].kind == "word"
        has_alias = has_alias and not self.next().is_word("JOIN", "WHERE", "ORDER", "LIMIT", "PAGINATE")
        self.relations.append(Relation(self.name() if has_alias else table.name, table))

    def ref(self) -> Ref:
        """A column, with its alias or that of the one relation that has it."""
        name = self.name()
        column = self.name() if self.marks(".") else None
        owners = [
            it.alias
            for it in self.relations
            if any(known.name == (column or name) for known in it.table.columns) and (not column or it.alias == name)
        ]
        if len(owners) != 1:
            raise Unread
        return Ref(owners[0], column or name)

    def predicate(self) -> Predicate:
        """A predicate."""
        left = self.ref()
        if self.takes("IS"):
            if not self.takes("NULL"):
                raise Unread
            return Predicate(left, "IS NULL")
        operator = self.next().text
        self.at += 1
        if operator not in COMPARISONS:
            raise Unread
        return Predicate(left, operator, self.side())

    def side(self) -> Ref | None:
        """What stands behind an operator: a column, or a value, which is left out."""
        if self.next().kind == "word" and not self.next().is_word("TRUE", "FALSE"):
            return self.ref()
        if not self.marks("["):
            self.at += 1
            return None
        while not self.marks("]"):
            self.next()
            self.at += 1
        return None

    def item(self) -> Ref:
        """A column of ORDER BY."""
        found = self.ref()
        self.takes("ASC", "DESC")
        return found

    def select(self) -> Select:
        """The query behind FROM, to its end."""
        self.relation()
        while self.marks(",") or self.takes("JOIN"):
            self.relation()
        predicates = [self.predicate()] if self.takes("WHERE") else []
        while predicates and self.takes("AND"):
            predicates.append(self.predicate())
        order = [self.item()] if self.takes("ORDER") and self.takes("BY") else []
        while order and self.marks(","):
            order.append(self.item())
        stops = self.takes("LIMIT", "PAGINATE")
        self.at += stops
        self.marks(";")
        if self.at != len(self.found) or len({it.alias for it in self.relations}) != len(self.relations):
            raise Unread
        return Select(tuple(self.relations), tuple(predicates), tuple(order), stops)


def read_select(statement: str, schema: Schema) -> Select:
    """The query of a SELECT, a PREPARE or an EXPLAIN. A text that is none is an Unread."""
    found = tokens(statement)
    begin = next((i for i, token in enumerate(found) if token.is_word("FROM")), len(found))
    return Reader(found[begin + 1 :], schema).select()
