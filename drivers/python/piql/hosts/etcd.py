"""Pairs in a cluster of etcd, under a fence: one engine writes, and one that lost the fence has no calls any more.

The key NAME/fence lives as long as its owner's lease, and has the value OWNER/WRITES/TURNS. Each call is one
transaction that compares this value. A write also changes it, to WRITES + 1, in the same transaction. So the value of
the fence tells of each write whether it was made. Where the answer of a write is lost, the fence is taken from
OWNER/w/t to OWNER/w/t+1 by a compare-and-set: once that has been told, the lost write can land no more, for it compares
OWNER/w/t; and where it isn't possible since the fence is OWNER/w+1/t, the write has landed. So a write is told as made,
or made once more.

The lease is renewed by the calls themselves, so an engine that is stopped loses it.
"""

import time
from collections.abc import Sequence
from typing import NamedTuple

from .backend import INTENT, UNSETTLED, Change, Fault, Guard, Held
from .etcd_client import (
    Body,
    EtcdClient,
    Refused,
    Stored,
    Told,
    coded,
    has_value,
    is_absent,
    looking,
    putting,
    read_change,
    read_found,
    reading,
    removing,
)
from .etcd_pairs import EtcdPairs
from .fenced import GONE, FencedStore

TXN = "/v3/kv/txn"
# How many changes a transaction has at most beside that of the fence, by etcd's own default (--max-txn-ops=128).
CHANGES_MOST = 127


class Fence(NamedTuple):
    """What the fence's value says: who has it, how many writes he made, and how often it was taken from lost calls."""

    owner: str
    writes: int = 0
    turns: int = 0

    def value(self) -> bytes:
        return f"{self.owner}/{self.writes}/{self.turns}".encode()

    def behind_write(self) -> "Fence":
        return self._replace(writes=self.writes + 1)

    def next_turn(self) -> "Fence":
        return self._replace(turns=self.turns + 1)


def read_fence(value: bytes) -> Fence:
    """The fence of a value."""
    try:
        owner, writes, turns = value.decode().rsplit("/", 2)
        return Fence(owner, int(writes), int(turns))
    except ValueError as error:
        raise Fault("the fence has a value that no engine writes") from error


def read_lease(told: Body) -> str:
    """The number of a lease that was granted."""
    return str(int(told["ID"]))


def read_time(told: Body) -> int:
    """The seconds of a lease that was renewed: 0 where there is none."""
    return int(told.get("result", told).get("TTL", 0))


def read_nothing(told: Body) -> None:
    """Reads nothing of an answer that is there."""


read_look = reading(1)


class EtcdStore(EtcdPairs, FencedStore):
    """The pairs under NAME/kv/."""

    def __init__(self, client: EtcdClient, name: str, lease: float = 10.0, patience: float = 10.0) -> None:
        EtcdPairs.__init__(self, client, name, patience)
        FencedStore.__init__(self, lease, patience)
        self.fence_key, self.lease_id = f"{name}/fence".encode(), ""
        self.fence = Fence(self.owner)

    # The fence

    def begin(self) -> None:
        """Has the fence: it is still there, or it is taken."""
        if self.lost is None and self.is_begun():
            return
        self.revoke()
        self.start()
        self.check_free(self.found_fence())
        self.renewed = time.monotonic()
        lease = {"TTL": str(max(1, round(self.lease)))}
        self.lease_id = self.client.post("/v3/lease/grant", lease, read_lease, self.left())
        self.take()
        self.lost = None

    def take(self) -> None:
        """Makes the fence, or takes it from a run of this store's own that ended."""
        found: list[Stored] = []
        while True:
            wanted = self.fence.next_turn()
            compare = has_value(self.fence_key, found[0].value) if found else is_absent(self.fence_key)
            body = {"compare": [compare], "success": [self.put_fence(wanted)], "failure": [looking(self.fence_key)]}
            told = self.client.post(TXN, body, read_change, self.left())
            self.fence, self.revision = wanted, told.revision
            found = [] if told.is_made else told.found[0]
            # This request itself may have been made before, without an answer.
            if told.is_made or found and found[0].value == wanted.value():
                return
            self.check_free(found)

    def check_free(self, found: list[Stored]) -> None:
        """Raises Held where another has the fence. One of this store's own is gone on from."""
        if not found:
            return
        held = read_fence(found[0].value)
        if held.owner != self.fence.owner:
            # So that what was asked for can't be made later either.
            self.revoke()
            raise Held(f"{held.owner} has it")
        self.fence = held._replace(turns=max(held.turns, self.fence.turns))

    def found_fence(self) -> list[Stored]:
        """The pair of the fence, if it is there."""
        return self.client.post("/v3/kv/range", {"key": coded(self.fence_key)}, read_found, self.left())

    def holder(self) -> str:
        self.start()
        found = self.found_fence()
        return read_fence(found[0].value).owner if found else ""

    def free(self, owner: str) -> bool:
        self.start()
        # (The value of an owner who lives and writes moves on.)
        while (found := self.found_fence()) and read_fence(found[0].value).owner == owner:
            compare = [has_value(self.fence_key, found[0].value)]
            body = {"compare": compare, "success": [removing(self.fence_key)], "failure": [looking(self.fence_key)]}
            if self.client.post(TXN, body, read_change, self.left()).is_made:
                return True
        return False

    def put_fence(self, fence: Fence) -> Body:
        """The part of a transaction that writes the fence."""
        return putting(self.fence_key, fence.value(), lease=self.lease_id)

    def compare_fence(self) -> Body:
        """The comparison that each call makes."""
        return has_value(self.fence_key, self.fence.value())

    def renew_fence(self) -> bool:
        """Renews the lease. While it lives, the fence is there, and nobody else makes one."""
        return self.client.post("/v3/lease/keepalive", {"ID": self.lease_id}, read_time, self.left()) > 0

    def revoke(self) -> None:
        """Gives the lease back, and the fence with it, if a member takes it within a second."""
        if self.lease_id:
            try:
                self.client.post("/v3/lease/revoke", {"ID": self.lease_id}, read_nothing, 1.0)
            except Fault:
                pass
        self.lease_id = ""

    # Reads

    def look(self, key: bytes, **more: object) -> list[Stored]:
        """What a read under the fence tells. Members are asked until one answers, for a read may be made twice."""
        return self.look_all([looking(key, **more)])[0]

    def look_all(self, parts: list[Body]) -> list[list[Stored]]:
        self.check()
        body = {"compare": [self.compare_fence()], "success": parts}
        told = self.client.post(TXN, body, reading(len(parts)), self.left())
        if not told.is_made:
            self.give_up(GONE)
        return told.found

    # Writes

    def write(self, key: bytes, guard: Guard, held: bytes, new: bytes | None) -> bool:
        at = self.front + key
        guards = {Guard.ANY: [], Guard.ABSENT: [is_absent(at)], Guard.IS: [has_value(at, held)]}[guard]
        return self.made(guards, [(key, new)])

    def commit(self, intent: bytes, changes: Sequence[Change]) -> None:
        # A transaction changes no key twice: the last change of each is made.
        last = list(dict(changes).items())
        is_alone = is_absent(self.front + INTENT)
        if len(last) <= CHANGES_MOST:
            if not self.made([is_alone], last):
                raise Fault(UNSETTLED)
            return
        if not self.made([is_alone], [(INTENT, intent)]):
            raise Fault(UNSETTLED)
        for begin in range(0, len(last), CHANGES_MOST):
            self.made([], last[begin : begin + CHANGES_MOST])
        self.made([], [(INTENT, None)])

    def made(self, guards: list[Body], changes: Sequence[Change]) -> bool:
        """Makes changes by one transaction; whether the guards held."""
        self.check()
        why: object = "too little time was left for it"
        while True:
            self.check_time(why)
            try:
                return self.tried(guards, changes)
            except Refused:
                raise
            except Fault as fault:
                if self.lost is not None:
                    raise
                if self.settle():
                    return True
                why = fault

    def tried(self, guards: list[Body], changes: Sequence[Change]) -> bool:
        """Asks one member for changes, once. A Fault says that there was no answer."""
        behind = self.fence.behind_write()
        parts = [removing(self.front + key) if new is None else putting(self.front + key, new) for key, new in changes]
        body = {"compare": [self.compare_fence(), *guards], "success": [*parts, self.put_fence(behind)]}
        body["failure"] = [looking(self.fence_key)]
        told = self.client.once(TXN, body, read_change, self.left() / 2)
        if told.is_made:
            self.fence, self.revision = behind, told.revision
            return True
        self.check_fence(told, self.fence)
        return False

    def check_fence(self, told: Told, wanted: Fence) -> None:
        """Gives up where a transaction found another fence."""
        if [pair.value for pair in told.found[0]] != [wanted.value()]:
            self.give_up(GONE)

    def settle(self) -> bool:
        """Takes the fence from a write without an answer; whether that write was made. It can be made no more."""
        made, taken = self.fence.behind_write(), self.fence.next_turn()
        body = {"compare": [self.compare_fence()], "success": [self.put_fence(taken)]}
        body["failure"] = [looking(self.fence_key)]
        try:
            told = self.client.post(TXN, body, read_change, self.left())
        except Fault as fault:
            # Undecided. The next fence decides it, and until then there is no further call.
            self.give_up(f"no member decides a write without an answer: {fault}")
        self.settled += 1
        self.revision = told.revision
        if not told.is_made and [pair.value for pair in told.found[0]] == [made.value()]:
            self.fence = made
            return True
        if not told.is_made:
            # This request itself may have been made before, without an answer.
            self.check_fence(told, taken)
        self.fence = taken
        return False

    def close(self) -> None:
        """Gives the fence back."""
        self.revoke()
        self.client.close()
        self.lost = "the store is closed"
