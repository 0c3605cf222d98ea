"""Pairs in a table of PostgreSQL, under a fence: one engine writes, and one that lost the fence has no calls any more.

The one row of piql_fence has its owner, an epoch and the number of writes. Each call is one statement that compares
epoch and number. A write also adds one to the number, and says there whether its guard held, so the row tells of each
write whether it was made. Where the answer of a write is lost, the epoch is raised by a compare-and-set: that waits for
the lost write, if the server is at it, and once it has been told the lost write can be made no more. A number that is
neither the last one told nor the next says that the server lost writes, as a standby that isn't synchronous may have.

The time until which the fence is its owner's is renewed by the calls themselves, so an engine that is stopped loses it.
A write is told once the synchronous standby has it, if the server has one.
"""

import math
import time
from collections.abc import Sequence
from typing import Any

from .backend import INTENT, UNSETTLED, Ask, Change, Fault, Guard, Held, Pair, Told, Unreachable
from .fenced import GONE, FencedStore
from .notices import notice
from .postgres_client import Lost, PostgresClient, Refused, Values
from .postgres_durability import ASKED as DURABILITY
from .postgres_durability import LOSES, REFUSED, Durability, weaknesses
from .postgres_layout import (
    BUILD_ORDER,
    DROP_KEY,
    HEAD_BYTES,
    LAYOUT,
    LOCKED,
    TABLES,
    VERSION_LEAST,
    Layout,
    digest_of,
    key_words,
    range_words,
    together_words,
    told_together,
)
from .postgres_texts import COMMIT, COUNT, FREE, GET, LOOK, PUTS, RANGE, REMOVALS, RENEW, SETTLE, TAKE, TAKE_AWAY, TOGETHER

PAUSE = 0.02
# More than its own limit for a lock.
DROP_SECONDS = 5.0
OLD_SERVER = "the server's version is {version}; stores in PostgreSQL want version 13 or later"
BRINGS_OVER = "the store in PostgreSQL is one of before, and is brought over to keys of any length; this is done once"


class PostgresStore(FencedStore):
    """The pairs of a database."""

    def __init__(self, url: str, lease: float = 10.0, patience: float = 10.0, is_durable: bool = False) -> None:
        super().__init__(lease, patience)
        self.client, self.is_durable = PostgresClient(url, patience), is_durable
        self.epoch = -1

    # The fence

    def begin(self) -> None:
        """Has the fence: it is still there, or it is taken. The tables are made where they aren't there."""
        if self.lost is None and self.is_begun():
            return
        self.start()
        layout = Layout(*self.again(LAYOUT)[0])
        if layout.version < VERSION_LEAST:
            raise Fault(OLD_SERVER.format(version=layout.version))
        self.check_durable()
        if not layout.has_fence:
            self.again(TABLES)
        self.take()
        if layout.has_fence and (layout.has_key or not layout.has_order):
            self.bring_over(layout.has_order)
        self.lost = None

    def check_durable(self) -> None:
        """Tells once what may lose writes that were told. Where each write is wanted on two servers, it is refused."""
        why = "; ".join(weaknesses(Durability(*self.again(DURABILITY)[0])))
        if why and self.is_durable:
            raise Fault(REFUSED.format(why=why))
        if why:
            notice(LOSES.format(why=why))

    def bring_over(self, has_order: bool) -> None:
        """Gives a table of before the index of today, and takes its key away. A kill between leaves the rest to do."""
        notice(BRINGS_OVER)
        if not has_order:
            self.again(BUILD_ORDER, until=math.inf, seconds=math.inf)
        self.start()
        while True:
            try:
                self.again(DROP_KEY, until=time.monotonic() + DROP_SECONDS)
                return
            except Refused as refused:
                if refused.code != LOCKED or not self.left():
                    raise Fault(f"the store can't be brought over: {refused}") from refused
            time.sleep(PAUSE)

    def take(self) -> None:
        """Takes the fence where nobody has it, or where it is this store's own."""
        while True:
            owner, epoch, revision, _, lives = self.again(LOOK)[0]
            if owner == self.owner and epoch > self.epoch:
                # A request of this store's was made, and had no answer.
                self.epoch, self.revision, self.renewed = epoch, revision, time.monotonic()
                return
            if lives and owner != self.owner:
                raise Held(f"{owner} has it")
            try:
                words = {"owner": self.owner, "epoch": epoch, "lease": self.lease}
                found = self.client.run(TAKE, words, self.until)
            except Lost:
                continue
            if found:
                self.epoch, self.revision, self.renewed = epoch + 1, found[0][0], time.monotonic()
                return

    def holder(self) -> str:
        self.start()
        if not Layout(*self.again(LAYOUT)[0]).has_fence:
            return ""
        owner, _, _, _, lives = self.again(LOOK)[0]
        return str(owner) if lives else ""

    def free(self, owner: str) -> bool:
        self.start()
        return bool(self.again(TAKE_AWAY, {"owner": owner}))

    def again(
        self, text: str, values: Values = {}, until: float | None = None, seconds: float | None = None
    ) -> list[tuple[Any, ...]]:
        """The rows of a statement that may be made twice: servers are asked until one answers, or the call's end."""
        end = self.until if until is None else until
        while True:
            try:
                return self.client.run(text, values, end, seconds)
            except Lost as lost:
                if time.monotonic() + PAUSE >= end:
                    raise Unreachable(f"no server answers: {lost}") from lost
                time.sleep(PAUSE)

    def words(self, **more: object) -> dict[str, object]:
        """The values of a statement: what is compared with the fence, and those of the call."""
        return {"epoch": self.epoch, "revision": self.revision, "lease": self.lease, **more}

    def read(self, text: str, **values: object) -> list[tuple[Any, ...]]:
        """The rows of a read, which are none where the fence is another one."""
        self.check()
        return self.again(text, self.words(**values)) or self.give_up(GONE)

    def renew_fence(self) -> bool:
        """Renews the fence's time. It stays beyond it where nobody takes it."""
        return bool(self.again(RENEW, self.words()))

    # The calls

    def get(self, key: bytes) -> bytes | None:
        value = self.read(GET, **key_words(key))[0][0]
        return None if value is None else bytes(value)

    def range(self, low: bytes, high: bytes, limit: int) -> list[Pair]:
        # Where the range is empty, the fence's row stands alone.
        found = self.read(RANGE, **range_words(low, high, limit))
        return sorted((bytes(k), bytes(v)) for k, v in found if k is not None)

    def count(self, low: bytes, high: bytes, cap: int) -> int:
        return int(self.read(COUNT, **range_words(low, high, cap))[0][0])

    def together(self, asks: Sequence[Ask]) -> list[Told]:
        return told_together(asks, self.read(TOGETHER, **together_words(asks))) if asks else []

    def write(self, key: bytes, guard: Guard, held: bytes, new: bytes | None) -> bool:
        texts = REMOVALS if new is None else PUTS
        return self.made(texts[guard], {**key_words(key), "held": held, "new": new})

    def commit(self, intent: bytes, changes: Sequence[Change]) -> None:
        # A statement changes no row twice: the last change of each is made.
        last = dict(changes)
        put = {key: new for key, new in last.items() if new is not None}
        gone = [key for key, new in last.items() if new is None]
        words = {"keys": list(put), "values": list(put.values())}
        words |= {"heads": [key[:HEAD_BYTES] for key in gone], "digests": [digest_of(key) for key in gone]}
        if not self.made(COMMIT, {**key_words(INTENT), **words}):
            raise Fault(UNSETTLED)

    def made(self, text: str, more: Values) -> bool:
        """Makes a statement that changes pairs; whether its guard held."""
        if self.lost is not None:
            raise Fault(self.lost)
        # (It renews the fence's time by itself.)
        self.start()
        why: object = "too little time was left for it"
        while True:
            self.check_time(why)
            try:
                half = time.monotonic() + self.left() / 2
                found = self.client.run(text, self.words(**more), half) or self.give_up(GONE)
            except Lost as lost:
                admitted = self.settle()
                if admitted is not None:
                    return admitted
                why = lost
                continue
            self.revision, self.renewed = found[0][0], time.monotonic()
            return bool(found[0][1])

    def settle(self) -> bool | None:
        """Takes the fence from a write without an answer, which can be made no more; None where it wasn't made.

        Else whether its guard held.
        """
        wanted = self.epoch + 1
        while True:
            try:
                found = self.client.run(SETTLE, self.words(), self.until) or self.found_settled(wanted)
                break
            except Lost as lost:
                if self.left() <= PAUSE:
                    # Undecided. The next fence decides it, and until then there is no further call.
                    self.give_up(f"no server decides a write without an answer: {lost}")
                time.sleep(PAUSE)
        self.settled += 1
        (revision, admitted), before = found[0], self.revision
        self.epoch, self.revision, self.renewed = wanted, revision, time.monotonic()
        if revision not in (before, before + 1):
            self.give_up(f"the server lost writes: {before} were told, and it has {revision}")
        return None if revision == before else bool(admitted)

    def found_settled(self, wanted: int) -> list[tuple[Any, ...]]:
        """The fence's number and word, where a settling of this store's own was made before, without an answer."""
        owner, epoch, revision, admitted, _ = self.client.run(LOOK, until=self.until)[0]
        if owner != self.owner or epoch != wanted:
            self.give_up(GONE)
        return [(revision, admitted)]

    def close(self) -> None:
        """Gives the fence back, if the server takes it at once."""
        if self.lost is None:
            try:
                self.client.run(FREE, self.words(), time.monotonic() + 1.0)
            except (Lost, Fault):
                pass
        self.client.close()
        self.lost = "the store is closed"
