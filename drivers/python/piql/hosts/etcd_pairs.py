"""The reads of pairs under NAME/kv/ in a cluster of etcd, as the writer and the readers make them."""

import abc
from collections.abc import Sequence

from .backend import Ask, Backend, Count, Fault, Get, Pair, Told
from .etcd_client import Body, EtcdClient, Stored, coded, looking

# How many reads one transaction has at most, by etcd's own default (--max-txn-ops=128).
READS_MOST = 128


class EtcdPairs(Backend):
    """A backend of which `look` says how a read is made. `patience` is for how long a call may take, in seconds."""

    def __init__(self, client: EtcdClient, name: str, patience: float) -> None:
        self.client, self.patience = client, patience
        self.front = f"{name}/kv/".encode()

    @abc.abstractmethod
    def look(self, key: bytes, **more: object) -> list[Stored]:
        """What a read of a key, or of a range from it, tells. The words are those of etcd's request."""

    @abc.abstractmethod
    def look_all(self, parts: list[Body]) -> list[list[Stored]]:
        """What several reads tell, at most as many as one transaction has."""

    def together(self, asks: Sequence[Ask]) -> list[Told]:
        sent = [part for part in map(self.part_of, asks) if part is not None]
        found: list[list[Stored]] = []
        for begin in range(0, len(sent), READS_MOST):
            found += self.look_all(sent[begin : begin + READS_MOST])
        rest = iter(found)
        return [self.told(ask, [] if self.part_of(ask) is None else next(rest)) for ask in asks]

    def part_of(self, ask: Ask) -> Body | None:
        """The part of a transaction that asks a question; none where nothing has to be asked."""
        if isinstance(ask, Get):
            return looking(self.front + ask.key)
        low, high, most = ask
        if low >= high or most <= 0:
            return None
        more = {"keys_only": True} if isinstance(ask, Count) else {}
        return looking(self.front + low, range_end=coded(self.front + high), limit=str(most), **more)

    def told(self, ask: Ask, found: list[Stored]) -> Told:
        """The answer to a question."""
        if isinstance(ask, Get):
            return self.value_in(ask.key, found)
        pairs = self.pairs_in(found)
        return len(pairs) if isinstance(ask, Count) else pairs

    def value_in(self, key: bytes, found: list[Stored]) -> bytes | None:
        """The value that a read of a key tells."""
        if [pair.key for pair in found] not in ([], [self.front + key]):
            raise Fault("a member answered with another key")
        return found[0].value if found else None

    def pairs_in(self, found: list[Stored]) -> list[Pair]:
        """The pairs that a read of a range tells."""
        if any(not pair.key.startswith(self.front) for pair in found):
            raise Fault("a member answered with pairs of another store")
        return [(pair.key[len(self.front) :], pair.value) for pair in found]

    def within(self, low: bytes, high: bytes, most: int, **more: object) -> list[Pair]:
        """The first pairs of a range."""
        if low >= high or most <= 0:
            return []
        return self.pairs_in(self.look(self.front + low, range_end=coded(self.front + high), limit=str(most), **more))

    def get(self, key: bytes) -> bytes | None:
        return self.value_in(key, self.look(self.front + key))

    def range(self, low: bytes, high: bytes, limit: int) -> list[Pair]:
        return self.within(low, high, limit)

    def count(self, low: bytes, high: bytes, cap: int) -> int:
        # etcd's own count goes over the whole range.
        return len(self.within(low, high, cap, keys_only=True))
