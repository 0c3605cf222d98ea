"""Several statements that are sent together: how many they may be, and how it is told what became of each."""

import struct
from collections.abc import Callable, Sequence
from typing import NamedTuple

from .errors import DatabaseError, Error, NotBegun

# The most statements, and the most bytes of the frame that has them, behind its length.
LOT_STATEMENTS = 1024
LOT_BYTES = 16_777_216
# In a frame each statement stands behind its length.
SIZE = struct.Struct("!I")
# The byte that says what the frame is, and the two numbers before the statements.
FRAME_HEAD = 9
ENDED_BEFORE = "a statement before it ended the run, or took too long: this one wasn't begun"


class Asked(NamedTuple):
    """One of several statements, and whether it changes nothing."""

    statement: bytes
    reads: bool


# What became of one: its report, or why it has none.
Outcome = str | DatabaseError
Tell = Callable[[Outcome], object]


class Told:
    """Tells what became of several statements, of each once and in their order."""

    def __init__(self, lot: Sequence[Asked], tell: Tell) -> None:
        self.lot, self.tell, self.count = lot, tell, 0

    def left(self) -> Sequence[Asked]:
        """Those of which nothing was told yet."""
        return self.lot[self.count :]

    def one(self, outcome: Outcome) -> None:
        """Tells what became of the next one."""
        self.count += 1
        self.tell(outcome)

    def rest(self, outcome: Callable[[Asked], DatabaseError]) -> None:
        """Tells what became of those that are left."""
        while self.count < len(self.lot):
            self.one(outcome(self.lot[self.count]))


def frame_size(statements: Sequence[bytes]) -> int:
    """How many bytes the frame of these statements has behind its length."""
    return FRAME_HEAD + sum(SIZE.size + len(it) for it in statements)


def not_begun(_: Asked) -> DatabaseError:
    """What is told of a statement behind one in which the run ended."""
    return NotBegun(ENDED_BEFORE)


def again(error: Error) -> Callable[[Asked], DatabaseError]:
    """Has an error told of each of several statements."""

    def told(_: Asked) -> DatabaseError:
        found = type(error)(*error.args)
        found.__cause__ = error.__cause__
        return found  # type: ignore[return-value] - those of a run are DatabaseErrors

    return told
