"""Pairs in memory: the least backend, and the one that tests compare the others with."""

import bisect
from collections.abc import Sequence

from .backend import INTENT, UNSETTLED, Backend, Change, Fault, Guard, Pair


class MemoryStore(Backend):
    """Pairs in a dictionary, beside the sorted list of its keys."""

    def __init__(self) -> None:
        self.values: dict[bytes, bytes] = {}
        self.keys: list[bytes] = []

    def get(self, key: bytes) -> bytes | None:
        return self.values.get(key)

    def range(self, low: bytes, high: bytes, limit: int) -> list[Pair]:
        start, end = bisect.bisect_left(self.keys, low), bisect.bisect_left(self.keys, high)
        return [(key, self.values[key]) for key in self.keys[start : min(end, start + limit)]]

    def count(self, low: bytes, high: bytes, cap: int) -> int:
        number = bisect.bisect_left(self.keys, high) - bisect.bisect_left(self.keys, low)
        return min(max(0, number), cap)

    def write(self, key: bytes, guard: Guard, held: bytes, new: bytes | None) -> bool:
        found = self.values.get(key)
        if (guard is Guard.ABSENT and found is not None) or (guard is Guard.IS and found != held):
            return False
        self.change(key, new)
        self.revision += 1
        return True

    def commit(self, intent: bytes, changes: Sequence[Change]) -> None:
        if INTENT in self.values:
            raise Fault(UNSETTLED)
        for key, new in changes:
            self.change(key, new)
        self.revision += 1

    def change(self, key: bytes, new: bytes | None) -> None:
        """Gives a key a value, or none."""
        is_there = key in self.values
        if new is None:
            self.values.pop(key, None)
        else:
            self.values[key] = new
        if new is not None and not is_there:
            bisect.insort(self.keys, key)
        if new is None and is_there:
            del self.keys[bisect.bisect_left(self.keys, key)]
