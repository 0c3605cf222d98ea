"""The limits of time: how long a client waits for a statement, and how long the engine may stand still in one.

A statement that waits is taken out of its turn and told so. One at hand is let go on, since nobody knows how far it is;
its client is told that it is made or not made. Only --statement-kill ends the engine, and that only in a statement: an
opening completes what a stop left, so ending it would gain nothing.
"""

from typing import Protocol, cast

from ..links import Run
from .clients import Ticket, ended_frame
from .loop import Loop
from .watch import Watch
from .worker import Worker

WAITED = "this statement waited {seconds:g} seconds for its turn, which is its limit of time: it wasn't made"
READ_ON = "this statement has been at hand for longer than its limit of time, {seconds:g} seconds; it changes nothing"
WRITE_ON = (
    "this statement has been at hand for longer than its limit of time, {seconds:g} seconds, and goes on: it is made or"
    " not made. Ask for the row to see which"
)
COPY_ON = "this copy has been at hand for longer than its limit of time, {seconds:g} seconds, and goes on"


class Killable(Protocol):
    """A process that can be ended."""

    def kill(self) -> None:
        """Ends it."""


class ProcessRun(Protocol):
    """A run of the engine that is a process."""

    process: Killable


class Limits:
    """Looks at the statements now and then. `wait` and `kill` are the server's limits in seconds, or None."""

    def __init__(self, loop: Loop, worker: Worker, wait: float | None, kill: float | None) -> None:
        self.loop, self.worker, self.wait, self.kill = loop, worker, wait, kill
        # The statement at hand, when it was begun, its run, and since when these are together.
        self.seen: tuple[Ticket | None, float | None, Run | None] = None, None, None
        self.since = 0.0

    def look(self, now: float, watch: Watch) -> None:
        """Ends the waits that are over, and an engine that stands still."""
        for client in list(self.loop.clients.values()):
            ticket = client.ticket
            if ticket is not None and (limit := self.limit_of(ticket)) is not None and now - ticket.asked > limit:
                self.end_wait(ticket, limit, watch)
        if self.kill is not None:
            self.end_run(now, self.kill, watch)

    def limit_of(self, ticket: Ticket) -> float | None:
        """The shorter one of the server's limit and the client's own, in seconds."""
        given = [limit for limit in (self.wait, ticket.request.limit) if limit is not None]
        return min(given, default=None)

    def end_wait(self, ticket: Ticket, limit: float, watch: Watch) -> None:
        """Tells a client that its wait is over, and what is known of its statement."""
        where = "waiting" if ticket.begun is None else "at-hand"
        if where == "waiting":
            self.loop.tell(ticket, ended_frame(WAITED.format(seconds=limit)), unless_begun=True)
        else:
            self.loop.tell(ticket, ended_frame(self.going_on(ticket).format(seconds=limit)))
        if ticket.is_told:
            watch.figures.limits[where] += 1
            watch.log.warning("timeout", where=where, limit=limit, **self.worker.fields(ticket))

    def going_on(self, ticket: Ticket) -> str:
        """What is told of a statement at hand."""
        if ticket.request.is_copy:
            return COPY_ON
        return READ_ON if ticket.request.reads else WRITE_ON

    def end_run(self, now: float, limit: float, watch: Watch) -> None:
        """Ends a run that stands still in its statement."""
        ticket, engine = self.worker.at_hand, self.worker.store.link.engine
        seen = ticket, ticket and ticket.begun, engine
        if seen != self.seen:
            self.seen, self.since = seen, now
        if ticket is None or engine is None or ticket.request.is_copy or now - self.since <= limit:
            return
        with self.loop.guard:
            # What is no longer at hand has its report, and its run is the next statement's.
            if self.worker.at_hand is not ticket or ticket.is_killed:
                return
            ticket.is_killed = True
            cast(ProcessRun, engine).process.kill()
        watch.figures.limits["killed"] += 1
        watch.log.error("statement-killed", limit=limit, **self.worker.fields(ticket))
