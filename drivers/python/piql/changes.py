"""The list of changes of a write that was cut off, as docs/FORMATS.md has its code."""

from .errors import InternalError
from .stored import ENTRIES, GROUPS, ROWS

PUT = 1


class Cut:
    """A code that is read from its begin to its end."""

    def __init__(self, code: bytes) -> None:
        self.code, self.at = code, 0

    def part(self, count: int) -> bytes:
        """The next bytes."""
        found = self.code[self.at : self.at + count]
        if len(found) < count:
            raise InternalError("a list of changes ends within one")
        self.at += count
        return found

    def number(self, size: int) -> int:
        """The next number of so many bytes."""
        return int.from_bytes(self.part(size))


def read_changes(code: bytes) -> dict[bytes, bytes | None]:
    """The new value of each key, or None where a pair is removed."""
    cut, found = Cut(code), dict[bytes, bytes | None]()
    for _ in range(cut.number(2)):
        key, kind = cut.part(cut.number(4)), cut.number(1)
        if key[:1] not in (bytes([ROWS]), bytes([ENTRIES]), bytes([GROUPS])) or kind > PUT:
            raise InternalError("a change of no row, no entry and no counter")
        found[key] = cut.part(cut.number(4)) if kind == PUT else None
    if cut.at != len(code):
        raise InternalError("a list of changes goes on behind its last one")
    return found
