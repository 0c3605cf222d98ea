"""What the stores of clusters share: one owner, a time that the calls renew, and no more calls once the fence is lost."""

import abc
import os
import socket
import time
from typing import NoReturn

from .backend import Backend, Fault

GONE = "the fence is another engine's, or gone"
LEFT = "a call was left before its answer"


class FencedStore(Backend):
    """A backend under a fence. `lease`, and `patience`, within which a call ends, are in seconds."""

    def __init__(self, lease: float, patience: float) -> None:
        self.lease, self.patience = lease, patience
        self.owner = f"{socket.gethostname()}:{os.getpid()}:{os.urandom(8).hex()}"
        # When the fence's time was renewed last, and when the call at hand has to end.
        self.renewed = self.until = 0.0
        # Why no more calls are made until the next `begin`.
        self.lost: str | None = "the store isn't begun"
        # How many writes had no answer and were decided.
        self.settled = 0

    @abc.abstractmethod
    def renew_fence(self) -> bool:
        """Renews the fence's time; whether it is still this store's."""

    @abc.abstractmethod
    def holder(self) -> str:
        """The name of who has the store, whoever that is, or nothing. Nothing has to be begun for it."""

    @abc.abstractmethod
    def free(self, owner: str) -> bool:
        """Takes the fence from an owner by his name, who has no calls from then on; whether he had it."""

    def start(self) -> None:
        """Begins a call."""
        self.until = time.monotonic() + self.patience

    def left(self) -> float:
        """The seconds that are left for the call at hand."""
        return max(0.0, self.until - time.monotonic())

    def check_time(self, why: object) -> None:
        """Has a write fail for which too little time is left: one that is sent may have to be decided too."""
        if self.left() < self.patience / 4:
            raise Fault(f"a write wasn't made: {why}")

    def check(self) -> None:
        """Begins a call. It fails once the fence is lost; the fence's time is renewed where a third of it is over."""
        self.start()
        if self.lost is not None:
            raise Fault(self.lost)
        now = time.monotonic()
        if now - self.renewed > self.lease / 3:
            if not self.renew_fence():
                self.give_up(GONE)
            self.renewed = now

    def is_begun(self) -> bool:
        """Whether the fence is still this store's. Where its time may be over, the servers are asked."""
        if self.lost is None and time.monotonic() - self.renewed > self.lease / 2:
            try:
                self.check()
            except Fault:
                return False
        return self.lost is None

    def leave(self) -> None:
        """Has the next run take the fence anew: behind that a write that was left can be made no more."""
        self.lost = self.lost or LEFT

    def keep(self) -> None:
        """Renews the time of an idle engine's fence. The next statement begins anew where that fails."""
        try:
            if self.lost is None:
                self.check()
        except Fault as fault:
            self.lost = str(fault)

    def give_up(self, why: str) -> NoReturn:
        """All calls from now on are faults."""
        self.lost = why
        raise Fault(why)
