"""Values, NULL among them: how they are ordered, compared, written and coded. NULL is None here."""

import base64
from collections.abc import Sequence

from comparing import COMPARISONS

Value = int | bool | str | None


def rank(value: Value) -> tuple[bool, int | bytes]:
    """What orders values of one kind: NULL comes first, texts go by their bytes."""
    if value is None:
        return (False, 0)
    return (True, value.encode() if isinstance(value, str) else value)


def order(left: Value, right: Value) -> int:
    """Below 0, 0 or above 0, as the left value comes before the right one, is equal to it, or comes behind."""
    return (rank(left) > rank(right)) - (rank(left) < rank(right))


def holds(comparison: str, left: Value, right: Value) -> bool:
    """Whether a comparison holds: of NULL none does."""
    if left is None or right is None:
        return False
    return COMPARISONS[comparison](order(left, right), 0)


def written(value: Value) -> str:
    """A value as a statement has it and as a report prints it."""
    if value is None:
        return "NULL"
    if isinstance(value, bool):
        return "true" if value else "false"
    return "'" + value.replace("'", "''") + "'" if isinstance(value, str) else str(value)


def payload(value: int | bool | str) -> bytes:
    """What stands behind the marker of an ascending value."""
    if isinstance(value, bool):
        return bytes([value])
    if isinstance(value, int):
        return (value + 2**63).to_bytes(8, "big")
    return value.encode().replace(b"\0", b"\0\xff") + b"\0\1"


def component(value: Value, descending: bool) -> bytes:
    """The key code of one value."""
    if value is None:
        return b"\x18" if descending else b"\x08"
    code = payload(value)
    return b"\x10" + (bytes(255 - byte for byte in code) if descending else code)


def key_code(values: Sequence[Value], descending: Sequence[bool]) -> bytes:
    return b"".join(map(component, values, descending))


def cursor(definition: int, values: Sequence[Value], descending: Sequence[bool]) -> str:
    """The text that stands for a position of the query with this number among the definitions."""
    code = b"\1" + definition.to_bytes(2, "big") + key_code(values, descending)
    return base64.urlsafe_b64encode(code).rstrip(b"=").decode()
