"""What a refusal speaks of by a number or a name, told from the definitions of the store: names alone, never values."""

from collections.abc import Callable
from typing import NamedTuple

from .conditions import conditions_of, is_place, operand_of, shown
from .counting import counted
from .schema import Column, Schema, Table, columns_behind
from .scripts import Token, tokens
from .selects import Unread
from .unbounded import unbounded


class Detail(NamedTuple):
    """A sentence for a message, the table and the columns that the refusal speaks of, and the causes that are known.

    `condition` is the condition or the predicate that it speaks of; `is_value` says that a value is at fault there.
    """

    detail: str = ""
    table: str | None = None
    key: tuple[str, ...] = ()
    causes: tuple[str, ...] = ()
    condition: str = ""
    is_value: bool = False


def listed(names: tuple[str, ...]) -> str:
    """Names for a reader."""
    return ", ".join(names)


def of_name(schema: Schema, _: list[Token], name: str) -> Detail:
    """Who has a name already."""
    kinds = (("table", schema.tables()), ("query", schema.queries()), ("counter", schema.counters()))
    return Detail(next((f"A {kind} has it." for kind, named in kinds if name in named), ""))


def of_values(schema: Schema, found: list[Token], number: str) -> Detail:
    """How many values are wanted, or which of them doesn't fit."""
    if number != "0":
        return Detail(f"It is value {number}.")
    name = found[1].text.lower() if len(found) > 1 else ""
    query, counter = schema.queries().get(name), schema.counters().get(name)
    wanted = query.params if query else len(counter.columns) if counter else None
    given = sum(not it.is_mark(",") for it in bracketed(found))
    if wanted is None:
        return Detail()
    return Detail(f"{counted(wanted, 'value')} {'is' if wanted == 1 else 'are'} wanted, and {given} given.")


def bracketed(found: list[Token]) -> list[Token]:
    """The tokens within the first parentheses."""
    begin = next((i for i, token in enumerate(found) if token.is_mark("(")), len(found))
    end = next((i for i in range(begin, len(found)) if found[i].is_mark(")")), len(found))
    return found[begin + 1 : end]


def of_column(schema: Schema, _: list[Token], table: str, name: str) -> Detail:
    """The type of the column that a value doesn't fit."""
    column = next(it for it in schema.tables()[table].columns if it.name == name)
    return Detail(f"{name} is {type_of(column)}.", table, (name,))


def type_of(column: Column) -> str:
    """A column's type as a definition has it."""
    size = f"({column.size})" if column.size else ""
    return f"{column.type}{size}{' NULL' if column.nullable else ', and takes no NULL'}"


def of_columns(schema: Schema, found: list[Token], name: str) -> Detail:
    """Which columns are wrong in a write."""
    table = schema.tables()[name]
    if found[0].is_word("INSERT"):
        return Detail(of_insert(table, found), name)
    keyed = f"The key of {name} is ({listed(table.key)}), and nothing else stands behind WHERE"
    return Detail(f"{keyed} nor any of it behind SET." if found[0].is_word("UPDATE") else f"{keyed}.", name, table.key)


def of_insert(table: Table, found: list[Token]) -> str:
    """Which columns an INSERT lacks, or how many values it wants."""
    listing = len(found) > 3 and found[3].is_mark("(")
    if not listing:
        return f"{counted(len(table.columns), 'value')} are wanted: {listed(tuple(it.name for it in table.columns))}."
    given = {token.text.lower() for token in bracketed(found)}
    lacking = tuple(it.name for it in table.columns if not it.is_added and it.name not in given)
    return f"It lacks {listed(lacking)}." if lacking else "There isn't one value for each column of its list."


def of_reference(schema: Schema, _: list[Token], table: str, number: str) -> Detail:
    """The foreign key of this number."""
    names, parent = columns_behind(schema.tables()[table], "FOREIGN", "KEY")[int(number) - 1]
    return Detail(f"It is ({listed(names)}) of {table}, which refers to {parent}.", table, names)


def of_limit(schema: Schema, _: list[Token], table: str, number: str, most: str) -> Detail:
    """The limit of this number."""
    names, _parent = columns_behind(schema.tables()[table], "CARDINALITY", "LIMIT")[int(number) - 1]
    return Detail(f"At most {most} rows of {table} have the same ({listed(names)}).", table, names)


def of_unbounded(statement: str, schema: Schema, alias: str) -> Detail:
    """Why a query has no bound."""
    found = unbounded(statement, schema, alias)
    return Detail(found.text, found.table, found.fixed, found.causes) if found else Detail()


def of_operand(_: Schema, found: list[Token], number: str) -> Detail:
    """The predicate or the condition of this number, whose two sides don't go together."""
    condition = conditions_of(found)[int(number) - 1]
    text = shown(condition)
    return Detail(f"It is {text}.", condition=text, is_value=is_place(operand_of(condition)))


def of_condition(_: Schema, found: list[Token], table: str, number: str) -> Detail:
    """The condition of this number, which doesn't hold of the row."""
    condition = conditions_of(found)[int(number) - 1]
    text = shown(condition)
    column = condition[0].text.lower()
    return Detail(f"Condition {number} doesn't hold of it: {text}.", table, (column,), condition=text)


READERS: dict[str, Callable[..., Detail]] = {
    "E201": of_name,
    "E302": of_operand,
    "E402": of_values,
    "E501": of_column,
    "E502": of_columns,
    "E505": of_reference,
    "E506": of_reference,
    "E507": of_limit,
    "E511": of_condition,
    "E514": of_column,
}


def has_detail(code: str) -> bool:
    """Whether the definitions tell more of such a refusal."""
    return code in READERS or code == "E304"


def detail_of(fields: tuple[str, ...], statement: str, schema: Schema) -> Detail:
    """What the definitions tell of a refusal. Where they are others meanwhile, it is nothing."""
    read = READERS.get(fields[0])
    found = tokens(statement)
    try:
        if fields[0] == "E304":
            return of_unbounded(statement, schema, *fields[1:])
        return read(schema, found, *fields[1:]) if read and found else Detail()
    except (KeyError, IndexError, StopIteration, TypeError, ValueError, Unread):
        return Detail()
