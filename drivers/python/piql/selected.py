"""The columns of a SELECT's answer, read from the SELECT as it was written."""

from collections.abc import Callable, Sequence

from .schema import Column, Query, Schema, Table
from .scripts import Token, tokens

Tokens = Sequence[Token]
BEHIND_FROM = ("WHERE", "ORDER", "LIMIT", "PAGINATE")


def between(found: Tokens, first: str, lasts: tuple[str, ...]) -> list[Token]:
    """The tokens behind a keyword, up to one of others or the end."""
    begin = next((i + 1 for i, token in enumerate(found) if token.is_word(first)), len(found))
    end = next((i for i in range(begin, len(found)) if found[i].is_word(*lasts) or found[i].is_mark(";")), len(found))
    return list(found[begin:end])


def cut(found: Tokens, is_between: Callable[[Token], bool]) -> list[list[Token]]:
    """The parts of a list between the tokens of a kind."""
    parts: list[list[Token]] = [[]]
    for token in found:
        if is_between(token):
            parts.append([])
        else:
            parts[-1].append(token)
    return parts


def is_comma(token: Token) -> bool:
    """Whether the token is a comma."""
    return token.is_mark(",")


def is_join(token: Token) -> bool:
    """Whether the token joins two relations."""
    return is_comma(token) or token.is_word("JOIN")


def relations_of(found: Tokens) -> list[tuple[str, str]]:
    """The relations of FROM in order, each with its alias and its table."""
    parts = [part for part in cut(between(found, "FROM", BEHIND_FROM), is_join) if part]
    return [(part[-1].text.lower(), part[0].text.lower()) for part in parts]


def selected_by(part: Tokens, relations: list[tuple[str, str]], tables: dict[str, Table]) -> tuple[str, str]:
    """One selected column, with the alias of its relation."""
    name = part[-1].text.lower()
    if len(part) > 1:
        return part[0].text.lower(), name
    return next((alias, name) for alias, table in relations if any(it.name == name for it in tables[table].columns))


def query_of(text: str, schema: Schema) -> Query:
    """The query that an accepted SELECT is, as far as its answer's columns go. A KeyError: the schema is another."""
    found, tables = tokens(text), schema.tables()
    relations = relations_of(found)
    listed = between(found, "SELECT", ("FROM",))
    if listed[0].is_mark("*"):
        selected = [(alias, column.name) for alias, table in relations for column in tables[table].columns]
    else:
        selected = [selected_by(part, relations, tables) for part in cut(listed, is_comma)]
    return Query("", tuple(selected), tuple(relations), 0, False, text)


def columns_of(text: str, schema: Schema) -> list[tuple[str, Column]]:
    """The columns of an accepted SELECT's answer with their names."""
    return schema.columns_of(query_of(text, schema))
