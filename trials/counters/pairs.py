"""The pairs of counters that a store has for some rows, by the bytes of docs/FORMATS.md."""

from collections.abc import Iterable

from piql.reports import Row, Value

from tables import COUNTERS, Group, Rows, groups, number_of

INTENT, COUNTED = 4, 5


def code_of_value(value: Value) -> bytes:
    """The key code of a value that is no NULL, ascending."""
    if isinstance(value, bool):
        return b"\x10" + bytes([value])
    if isinstance(value, int):
        return b"\x10" + (value + 2**63).to_bytes(8)
    assert value is not None
    return b"\x10" + value.encode().replace(b"\0", b"\0\xff") + b"\0\x01"


def code_of(values: Row) -> bytes:
    return b"".join(map(code_of_value, values))


def key_of(group: Group) -> bytes:
    return bytes([COUNTED]) + COUNTERS[group.counter].number.to_bytes(2) + code_of(group.values)


def counted_pairs(rows: Rows) -> dict[bytes, bytes]:
    """A pair for each group that has rows."""
    numbers = {key_of(group): number_of(rows, group) for group in groups()}
    return {key: number.to_bytes(8) for key, number in numbers.items() if number}


def told_pairs(pairs: Iterable[tuple[bytes, bytes]]) -> dict[bytes, bytes]:
    """Of a store's pairs those of counters and of an intent."""
    return {key: value for key, value in pairs if key[0] in (INTENT, COUNTED)}
