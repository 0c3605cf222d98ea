"""What a server tells of itself, at once and outside the queue. No value, no literal and no key of a row is in it."""

import contextlib
import os
import threading
import time
from collections.abc import Iterator

from ..hosts.link import HostLink
from ..hosts.passwords import shown
from ..hosts.urls import is_url
from ..links import FileLink
from ..version import VERSION
from .clients import Ticket
from .figures import DEFINITIONS, INDEXES, Figures
from .log import Log
from .loop import Loop

Told = dict[str, object]
OPEN, OPENING, NONE = "open", "opening", "none"
# How often the log tells of an opening that isn't over, in seconds.
EVERY = 10.0


def shown_store(store: str) -> str:
    """A store's file, or its URL without a password."""
    return shown(store) if is_url(store) else store


def log_bytes(link: FileLink | HostLink) -> int | None:
    """How long a file's log is. While an index is completed it grows with each entry."""
    with contextlib.suppress(OSError):
        if isinstance(link, FileLink):
            return os.stat(f"{link.path}-wal").st_size
    return None


@contextlib.contextmanager
def told_while_opening(log: Log) -> Iterator[None]:
    """Tells the log now and then that the store is being opened; what a stop left half made is completed there."""
    ended, begun = threading.Event(), time.monotonic()

    def tell() -> None:
        while not ended.wait(EVERY):
            log.info("opening", seconds=time.monotonic() - begun)

    threading.Thread(target=tell, name="opening", daemon=True).start()
    try:
        yield
    finally:
        ended.set()


def at_hand_of(ticket: Ticket | None, figures: Figures, now: float) -> Told | None:
    """What is made now: its first word, its name if the store has it, and for how many seconds."""
    if ticket is None:
        return None
    name = ticket.request.name()
    known = name if name in figures.catalog.names else None
    return {"statement": ticket.request.word, "name": known, "seconds": round(now - ticket.since(), 3)}


def lease_of(link: FileLink | HostLink, now: float) -> Told | None:
    """The lease of a store in a cluster: whether it is held, for how long it is, and how old, in seconds."""
    if not isinstance(link, HostLink):
        return None
    backend = link.backends[0]
    renewed = getattr(backend, "renewed", now)
    held = getattr(backend, "lost", None) is None
    return {"held": held, "seconds": getattr(backend, "lease", None), "age": round(now - renewed, 3)}


def state_of(link: FileLink | HostLink, ticket: Ticket | None) -> str:
    """What the engine is at: it is open, or a statement is opening it, or there is none since the last one ended."""
    if link.engine is not None:
        return OPEN
    return NONE if ticket is None else OPENING


def status(store: str, link: FileLink | HostLink, loop: Loop, figures: Figures, ticket: Ticket | None) -> Told:
    """All that is told; `ticket` is what is made now."""
    now = time.monotonic()
    return {
        "version": VERSION,
        "process": os.getpid(),
        "store": store,
        "since": time.strftime("%Y-%m-%dT%H:%M:%SZ", time.gmtime(figures.since)),
        "seconds": round(now - figures.began, 3),
        **clients_of(loop, figures),
        "at_hand": at_hand_of(ticket, figures, now),
        "statements": dict(figures.statements),
        "refusals": dict(figures.refusals),
        "slow": figures.slow,
        "limits": dict(figures.limits),
        "busy_seconds": round(figures.seconds, 3),
        "engine": state_of(link, ticket),
        "engine_runs": figures.runs,
        "engine_ends": {str(status): count for status, count in figures.ends.items()},
        "log_bytes": log_bytes(link),
        "lease": lease_of(link, now),
        "revision": getattr(link, "revision", 0),
        "definitions": figures.catalog.definitions,
        "definitions_most": DEFINITIONS,
        "indexes": figures.catalog.indexes,
        "indexes_most": INDEXES,
    }


def clients_of(loop: Loop, figures: Figures) -> Told:
    """Who is there, who waits, and who wasn't taken."""
    tickets = [client.ticket for client in loop.clients.values()]
    return {
        "clients": len(tickets),
        "clients_most": loop.coming.most,
        "clients_refused": figures.clients_refused.total(),
        "waiting": sum(ticket is not None and ticket.begun is None for ticket in tickets),
    }
