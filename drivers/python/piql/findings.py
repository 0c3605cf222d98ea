"""What a look at a whole store finds: differences by their keys, and how far the look is."""

import time
from collections.abc import Iterable, Iterator
from typing import TextIO

from .counting import counted
from .hosts.backend import Pair
from .load import QUIET

MOST_TOLD = 100


class Findings:
    """What was found so far. The first differences are told, all of them are counted."""

    def __init__(self, out: TextIO, tell: TextIO) -> None:
        self.out, self.tell = out, tell
        self.pairs, self.differences, self.told = 0, 0, time.monotonic()

    def add(self, key: bytes, what: str) -> None:
        """One difference more."""
        self.differences += 1
        if self.differences <= MOST_TOLD:
            print(key.hex() or "-", what, file=self.out)

    def note(self, what: str) -> None:
        """Something that is no difference."""
        print(what, file=self.tell, flush=True)

    def counted(self, pairs: Iterable[Pair]) -> Iterator[Pair]:
        """Counts pairs that go by, and tells how far it is once in a while."""
        for pair in pairs:
            self.pairs += 1
            if time.monotonic() - self.told > QUIET:
                self.told = time.monotonic()
                self.note(f"{counted(self.pairs, 'pair')}, {counted(self.differences, 'difference')}")
            yield pair
