"""What a caller gives, as the plain text, number or path that it is.

A class may go on from str or int and have methods of its own, as the Markup of a template has. None of them is asked:
what is sent is what str and int themselves hold.
"""

import math
import os
from collections.abc import Iterable, Iterator, Sequence

from .errors import InterfaceError, ProgrammingError

# Some 23 days, since poll takes 2^31 milliseconds.
LONGEST = 2_000_000.0


def plain_text(given: object, what: str) -> str:
    """The characters of a str, whatever its class says of them. Another type is refused; `what` says what it is for."""
    if type(given) is str:
        return given
    if issubclass(type(given), str):
        return str.__str__(given)  # type: ignore[arg-type] - the type was asked, since the value may lie
    raise ProgrammingError(f"{what} is a str, and no {type(given).__name__}")


def plain_path(given: object, what: str) -> str:
    """The path that a str, bytes or an os.PathLike is. One that no call of the system takes is refused."""
    try:
        path = plain_text(os.fsdecode(given), what)  # type: ignore[arg-type] - another type is a TypeError
        is_sound = b"\0" not in os.fsencode(path)
    except TypeError as error:
        raise InterfaceError(f"{what} is a path, and no {type(given).__name__}") from error
    except UnicodeEncodeError as error:
        raise InterfaceError(f"{what} has half a surrogate pair") from error
    if not is_sound or not path:
        raise InterfaceError(f"{what} is empty or has a NUL")
    return path


def plain_seconds(given: object, what: str) -> float:
    """A number of seconds. More than a wait of the system takes, as math.inf, is the longest that it takes."""
    if not isinstance(given, (int, float)) or math.isnan(given) or given < 0:
        raise InterfaceError(f"{what} is a number of seconds, from 0")
    return float(min(given, LONGEST))


def plain_count(given: object, what: str) -> int:
    """A number that a frame has room for."""
    if type(given) is not int or not 0 <= given < 1 << 32:
        raise InterfaceError(f"{what} is a number, from 0 and below 2^32")
    return given


def plain_list(given: object) -> tuple[object, ...]:
    """The values of a list, a tuple or another sequence, which is read once."""
    if type(given) not in (tuple, list) and (isinstance(given, (str, bytes)) or not isinstance(given, Sequence)):
        raise ProgrammingError(f"values come as a list or a tuple, and no {type(given).__name__}")
    return tuple(given)  # type: ignore[arg-type] - it is a sequence


def plain_rows(given: Iterable[object]) -> Iterator[object]:
    """The members of whatever can be gone over."""
    try:
        return iter(given)
    except TypeError as error:
        raise ProgrammingError(f"a {type(given).__name__} has no lists of values") from error
