"""The type objects and constructors of PEP 249. The engine has whole numbers, truth values and texts."""

import datetime
import functools
import time
from collections.abc import Callable

from .errors import DataError


def of_parts(make: Callable[..., str]) -> Callable[..., str]:
    """A constructor that refuses what is none of its kind by a DataError."""

    @functools.wraps(make)
    def made(*parts: object) -> str:
        try:
            return make(*parts)
        except (ValueError, TypeError, OverflowError, OSError) as error:
            raise DataError(f"{make.__name__} isn't made of these") from error

    return made


class TypeObject:
    """Equal to the type codes of a kind of columns, as cursor.description has them."""

    def __init__(self, *codes: str) -> None:
        self.codes = frozenset(codes)

    def __eq__(self, other: object) -> bool:
        return other in self.codes if isinstance(other, str) else self is other

    def __hash__(self) -> int:
        return hash(self.codes)


STRING = TypeObject("TEXT")
NUMBER = TypeObject("INT", "BOOL")
BINARY = TypeObject()
DATETIME = TypeObject()
ROWID = TypeObject()


@of_parts
def Date(year: int, month: int, day: int) -> str:  # noqa: N802 - the names are the standard's
    """A date as the text YYYY-MM-DD, whose order is that of the dates. It comes back as this text."""
    return datetime.date(year, month, day).isoformat()


@of_parts
def Time(hour: int, minute: int, second: int) -> str:  # noqa: N802
    """A time of day as the text HH:MM:SS."""
    return datetime.time(hour, minute, second).isoformat()


@of_parts
def Timestamp(year: int, month: int, day: int, hour: int, minute: int, second: int) -> str:  # noqa: N802
    """A time as the text YYYY-MM-DD HH:MM:SS."""
    return datetime.datetime(year, month, day, hour, minute, second).isoformat(" ")


@of_parts
def DateFromTicks(ticks: float) -> str:  # noqa: N802
    """The date, here, of a number of seconds since 1970."""
    return Date(*time.localtime(ticks)[:3])


@of_parts
def TimeFromTicks(ticks: float) -> str:  # noqa: N802
    """The time of day, here, of a number of seconds since 1970."""
    return Time(*time.localtime(ticks)[3:6])


@of_parts
def TimestampFromTicks(ticks: float) -> str:  # noqa: N802
    """The time, here, of a number of seconds since 1970."""
    return Timestamp(*time.localtime(ticks)[:6])


@of_parts
def Binary(data: bytes) -> str:  # noqa: N802
    """Bytes as a text of two digits for each, whose order is that of the bytes. It comes back as this text."""
    return bytes(memoryview(data)).hex()
