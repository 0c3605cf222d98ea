"""What SQLAlchemy can say and the language can't: each with a sentence what to do."""

from typing import Any, NoReturn

from sqlalchemy import exc
from sqlalchemy.sql import operators


class NotOffered(exc.CompileError):
    """A statement of SQLAlchemy's that isn't in the language. It is told before anything is sent."""


KEYED = "but of one row by its whole key (columns = values, joined by AND): find keys by a SELECT, and write each row"
WAYS = {
    "or": "OR: run the query once for each value, and join the answers",
    "in": "IN: run the query once for each value; a pipeline sends them together",
    "not": "NOT: an equality or <> of the column; for a BOOL column == False",
    "like": "LIKE: two comparisons as name >= 'an' AND name < 'ao', or a table of words",
    "is not": "IS NOT NULL: column >= the least value, as column >= ''",
    "operator": "expressions: compare a column with a value, or by = with a column, and work out all else in the site",
    "function": "functions: text('READ name (:value)') tells a counter's number; the site works out all else",
    "join": "outer joins: a second query, for the rows that have no partner",
    "subquery": "queries within statements: a join, or a second statement with the first one's answer",
    "union": "UNION: several queries; the site joins their answers",
    "distinct": "DISTINCT, GROUP BY and HAVING: a table of the groups; a counter has the number of each",
    "offset": "OFFSET: pages go by cursors, a query with PAGINATE and `after=` of the driver's own connection",
    "limit": "LIMIT but of a number, and no FETCH",
    "lock": "FOR UPDATE: one writer at a time, by piql-serve",
    "nulls": "NULLS FIRST and LAST: NULL comes first, and last under DESC",
    "returning": "RETURNING: the site has all values already",
    "rows": "several rows in one INSERT: an INSERT for each, on a connection of the isolation level AUTOCOMMIT",
    "update": f"UPDATE {KEYED}",
    "delete": f"DELETE {KEYED}",
    "prefix": "prefixes, suffixes and hints",
    "name": "{name} as a name: letters, digits and _, at most 32, no digit first and none of the 35 keywords",
    "schema": "schemas: each store has its own tables",
    "define": "definitions by metadata.create_all: python -m piql migrate STORE SCHEMA makes tables and queries",
}
LIKES = "like_op not_like_op ilike_op not_ilike_op contains_op startswith_op endswith_op match_op".split()
OPERATORS: dict[Any, str] = {
    operators.or_: "or",
    operators.in_op: "in",
    operators.not_in_op: "in",
    operators.is_not: "is not",
    operators.inv: "not",
    operators.exists: "subquery",
    **{getattr(operators, name): "like" for name in LIKES},
}


def refuse(what: str, **words: str) -> NoReturn:
    """Refuses by the sentence of a way."""
    raise NotOffered(f"the language has no {WAYS[what].format(**words)}")


def refuse_operator(operator: object) -> NoReturn:
    """Refuses an operator."""
    refuse(OPERATORS.get(operator, "operator"))
