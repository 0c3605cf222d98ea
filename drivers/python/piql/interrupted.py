"""What stands where somebody interrupts a statement at the prompt."""

from collections.abc import Sequence

from .connection import Connection
from .errors import Error
from .scripts import tokens
from .statements import Kind
from .stored import StoredDefinition

# How many tokens of a definition have its name: `PREPARE q`, `CREATE TABLE t`, `ALTER TABLE t ADD COLUMN c`.
HEADS = {Kind.PREPARE: 2, Kind.CREATE: 3, Kind.ALTER: 6}
NOTHING = "this statement changes nothing"
WRITTEN = "this statement was made whole or not at all; read its row to see which"
NOT_MADE = "nothing was made of this statement"
MADE = "{head} stands"
UNFILLED = "the index of {name} isn't filled yet: the next statement fills it first, from the beginning"
AT_SERVER = "the server makes this statement all the same, if it had it whole; ask for it to see"
UNKNOWN = "this statement was made whole or not at all, and the store can't be looked at now ({why})"


def head_of(kind: Kind, text: str) -> str:
    """The first words of a definition, with its name."""
    return " ".join(token.text for token in tokens(text)[: HEADS[kind]])


def of_definition(kind: Kind, text: str, found: Sequence[StoredDefinition]) -> str:
    """Whether a definition is among those that the store has."""
    head = head_of(kind, text)
    is_there = any(head_of(kind, it.text).upper() == head.upper() for it in found)
    return MADE.format(head=head) if is_there else NOT_MADE


def of_statement(kind: Kind, text: str, found: Sequence[StoredDefinition]) -> str:
    """What stands of a statement, beside the definitions that the store has."""
    if kind.reads:
        return NOTHING
    return of_definition(kind, text, found) if kind.defines else WRITTEN


def what_stands(connection: Connection, kind: Kind, text: str) -> str:
    """What stands where a statement was interrupted, and what the next one waits for.

    The run is ended by then. A definition stands once its pair is there; of a query with an index this is its mark,
    behind which the next opening fills the index.
    """
    connection.forget()
    try:
        found = connection.link().stored()
    except Error as error:
        return NOTHING if kind.reads else UNKNOWN.format(why=error)
    if found is None:
        return NOTHING if kind.reads else AT_SERVER
    said = of_statement(kind, text, found)
    if found and not found[-1].is_ready:
        return f"{said}; {UNFILLED.format(name=tokens(found[-1].text)[1].text)}"
    return said
