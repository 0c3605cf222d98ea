"""The codes of keys, as docs/FORMATS.md has them: their bytes are in the order of the values."""

from collections.abc import Sequence

from .reports import Value

NULL, NULL_DESCENDING, GIVEN = b"\x08", b"\x18", b"\x10"
COMPLEMENT = bytes(255 - byte for byte in range(256))
SIGN = 2**63


def payload(value: int | bool | str) -> bytes:
    """A value without its marker, ascending."""
    if isinstance(value, bool):
        return bytes([value])
    if isinstance(value, int):
        return (value + SIGN).to_bytes(8)
    return value.encode().replace(b"\0", b"\0\xff") + b"\0\x01"


def value_code(value: Value, descends: bool) -> bytes:
    """The code of a value."""
    if value is None:
        return NULL_DESCENDING if descends else NULL
    return GIVEN + (payload(value).translate(COMPLEMENT) if descends else payload(value))


def key_code(values: Sequence[Value], descends: Sequence[bool] = ()) -> bytes:
    """The code of values, all ascending where nothing else is said."""
    ways = descends or [False] * len(values)
    return b"".join(map(value_code, values, ways))
