"""Several statements of one frame. They take turns with what others ask for: a few of them are made in each turn."""

from ..frames import LIMITS, STATEMENT, statements_in
from ..scripts import STATEMENT_BYTES
from .requests import OTHER, READING, WRITING, Request

# How many statements, and of how many bytes, are made in a turn, which is what a statement of another client waits for.
IN_A_TURN = 16
PLAIN = READING | WRITING


class Lot:
    """A frame of several statements. What is none is a FrameError; then none of them is made."""

    is_copy = False

    def __init__(self, text: bytes) -> None:
        self.statements = statements_in(text)
        milliseconds, self.rows = LIMITS.unpack_from(text)
        # For how many seconds its client waits for all of it.
        self.limit: float | None = milliseconds / 1000 or None
        # How many were answered, those that may be made next, and how many of these are made in the turn at hand.
        self.answered, self.next, self.taken = 0, list[Request](), 0
        # How many reports of this turn have come.
        self.reported = 0

    def prepare(self) -> None:
        """Reads those of the next turn: as many as a statement's bytes have room for. One that is none is a FrameError.

        To read a long one takes a while, so they aren't all read before the first is made.
        """
        size = 0
        self.next, self.taken, self.reported = [], 0, 0
        for text in self.statements[self.answered : self.answered + IN_A_TURN]:
            size += len(text)
            if self.next and size > STATEMENT_BYTES:
                break
            request = Request(STATEMENT, text)
            request.rows = self.rows
            self.next.append(request)

    def take(self, takes: frozenset[str]) -> None:
        """Begins a turn. A statement that defines something or isn't for this client has one of its own."""
        plain = next((i for i, it in enumerate(self.next) if it.word not in PLAIN & takes), len(self.next))
        self.taken = max(plain, 1)

    def turn(self) -> list[Request]:
        """Those of the turn at hand."""
        return self.next[: self.taken]

    def end_turn(self) -> bool:
        """Those of the turn were answered; whether there are more."""
        self.answered, self.taken = self.answered + self.taken, 0
        return self.answered < len(self.statements)

    def left(self) -> int:
        """How many weren't begun."""
        return len(self.statements) - self.answered - self.taken

    def at_hand(self) -> Request:
        """The one that is made now."""
        return self.next[min(self.reported, len(self.next) - 1)]

    @property
    def word(self) -> str:
        """Its first word in capitals, once it was read."""
        return self.at_hand().word if self.next else OTHER

    @property
    def reads(self) -> bool:
        """Whether those of the turn change nothing."""
        return all(it.reads for it in self.turn())

    def name(self) -> str:
        """The name that the one at hand is about."""
        return self.at_hand().name() if self.next else ""
