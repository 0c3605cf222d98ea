"""A server at work: the loop that has the sockets, the worker that has the engine, and their end in a bounded time."""

import json
import signal
import time
from collections.abc import Callable, Sequence

from ..hosts.link import HostLink
from ..links import FileLink
from .children import kill_children
from .clients import Ticket, ended_frame
from .coming import Coming
from .limits import Limits
from .loop import Loop
from .observed import Observed
from .settings import Settings
from .sockets import Listener
from .telling import EVERY, OPENING, log_bytes, shown_store, state_of, status
from .watch import Watch
from .worker import Worker

# For how many seconds a stop waits for what was asked before it, and then for an engine that it had to kill.
PATIENCE = 5.0
ENDING = 2.0
# The statuses of a server that ends by itself: by a fault of its own, and since its store's file is gone.
FAULT, GONE = 1, 5
NOT_MADE = "the server was stopped before this statement's turn came, so it wasn't made"
OPEN = "the server was stopped in the middle of this statement: it was made whole or not at all"


class Service:
    """One store for the clients of some sockets."""

    def __init__(self, link: FileLink | HostLink, listeners: Sequence[Listener], given: Settings, watch: Watch) -> None:
        self.watch, self.link, self.name = watch, link, shown_store(given.store)
        self.loop = Loop(Coming(listeners, given.clients, watch), given.idle, self, watch.log)
        self.worker = Worker(Observed(link, watch), self.loop, watch, given)
        self.limits = Limits(self.loop, self.worker, given.statement_timeout, given.statement_kill)
        # When the log was told last that the store is being opened.
        self.told = 0.0
        # The signal that stops it.
        self.signal = 0
        signal.set_wakeup_fd(self.loop.polls.wake_write, warn_on_full_buffer=False)
        for number in (signal.SIGTERM, signal.SIGINT):
            signal.signal(number, self.take_signal)

    def give(self, ticket: Ticket) -> None:
        """Gives a request its turn."""
        self.worker.waiting.put(ticket)

    def status(self) -> bytes:
        """How the server is, in JSON."""
        ticket = self.worker.at_hand
        return json.dumps(status(self.name, self.link, self.loop, self.watch.figures, ticket)).encode()

    def look(self, now: float) -> None:
        """Looks at the limits of time, and tells of an opening that takes long."""
        self.limits.look(now, self.watch)
        ticket = self.worker.at_hand
        if ticket is None or state_of(self.link, ticket) != OPENING:
            return
        if now > max(self.told, ticket.since()) + EVERY:
            self.told = now
            self.watch.log.info("opening", seconds=now - ticket.since(), log_bytes=log_bytes(self.link))

    def take_signal(self, number: int, _frame: object) -> None:
        """Stops it; the work of stopping is done outside the handler."""
        self.signal = number

    def run(self) -> int:
        """Serves until a signal stops it; the status of the program. Without a thread for it, a RuntimeError."""
        try:
            self.worker.thread.start()
        except RuntimeError:
            self.loop.close_door()
            self.link.close()
            raise
        while not self.signal and self.worker.thread.is_alive():
            self.loop.turn()
        self.stop()
        if self.worker.is_gone:
            return GONE
        return 0 if self.signal else FAULT

    def stop(self) -> None:
        """Makes what was asked before, as far as the time goes, tells the rest that it wasn't, and closes the store."""
        self.watch.log.info("stopping", signal=signal.Signals(self.signal).name if self.signal else None)
        self.loop.close_door()
        self.worker.end()
        self.turn_while(self.worker.thread.is_alive, PATIENCE)
        self.loop.tell_all(ended_frame(NOT_MADE), unless_begun=True)
        if self.worker.thread.is_alive():
            # It stands still in a statement or at its end. What it leaves is what every stop leaves.
            self.watch.log.error("engine-killed", seconds=PATIENCE)
            kill_children()
            self.turn_while(self.worker.thread.is_alive, ENDING)
        self.loop.tell_all(ended_frame(OPEN))
        self.turn_while(lambda: bool(self.loop.clients), ENDING)
        signal.set_wakeup_fd(-1)
        self.loop.close()
        figures = self.watch.figures
        seconds = time.monotonic() - figures.began
        self.watch.log.info("ended", seconds=seconds, statements=figures.statements.total(), runs=figures.runs)

    def turn_while(self, goes_on: Callable[[], bool], seconds: float) -> None:
        """Goes on for so many seconds at most."""
        until = time.monotonic() + seconds
        while time.monotonic() < until and goes_on():
            self.loop.turn()
