"""The store of a server, and what of its life the log and the figures are told: runs, ends, leases, a full disk.

The texts of errors go to the client whose statement it was, and not to the log: they may tell what a row has.
"""

import contextlib
import os
from collections.abc import Sequence

from ..errors import Error, StoreGone
from ..hosts.link import HostLink
from ..links import FileLink, Run
from ..lots import Asked, Tell
from ..statuses import MEANINGS
from .figures import read_catalog
from .log import Field
from .watch import Watch

SHOW = b"SHOW;"
# With less than this many bytes a disk is called full.
FULL_BELOW = 1 << 20


def meaning_of(status: int) -> str:
    """What the status of an engine's run says."""
    return f"signal {-status}" if status < 0 else MEANINGS.get(status, "a status that the engine doesn't have")


class Observed:
    """A link that one thread uses."""

    def __init__(self, link: FileLink | HostLink, watch: Watch) -> None:
        self.link, self.watch = link, watch
        self.figures, self.log = watch.figures, watch.log
        self.engine: Run | None = None
        self.has_lease = isinstance(link, HostLink)
        self.look("start")

    def exchange(self, text: bytes, reads: bool) -> str:
        """The report of a statement."""
        why = "begun anew"
        if self.engine is not None and not self.engine.has_room(text):
            why = "rollover"
        try:
            return self.link.exchange(text, reads)
        finally:
            if self.link.engine is not self.engine or self.has_lease:
                self.look(why)

    def exchange_all(self, lot: Sequence[Asked], tell: Tell) -> None:
        """Tells what became of each of several statements."""
        why = "begun anew"
        if self.engine is not None and not self.engine.has_room(b"".join(it.statement for it in lot)):
            why = "rollover"
        try:
            self.link.exchange_all(lot, tell)
        finally:
            if self.link.engine is not self.engine or self.has_lease:
                self.look(why)

    def backup(self, path: str) -> None:
        """A copy."""
        self.link.backup(path)
        self.look("rollover")

    def keep(self) -> None:
        """Keeps the lease of a cluster while no statement is at work; of a file, sees whether it is still there."""
        if isinstance(self.link, HostLink):
            self.link.keep()
            self.look("begun anew")
        else:
            self.link.check_there()

    def drop_run(self) -> None:
        """Ends the run; the next statement begins another. A store in a cluster stays this server's."""
        if isinstance(self.link, HostLink):
            self.link.end_run()
        else:
            self.link.close()
        self.look("begun anew")

    def close(self) -> None:
        """Closes the store."""
        self.link.close()

    def look(self, why: str) -> None:
        """Tells of a run that is a new one, and of a lease that was lost or taken."""
        if self.link.engine is not self.engine:
            self.engine = self.link.engine
            if self.engine is not None:
                self.figures.runs += 1
                self.log.info("engine-begun", why=why, runs=self.figures.runs)
        if isinstance(self.link, HostLink):
            held = getattr(self.link.backends[0], "lost", None) is None
            if held != self.has_lease:
                self.has_lease = held
                (self.log.info if held else self.log.error)("lease-taken" if held else "lease-lost")

    def failed(self, error: Exception, **fields: Field) -> None:
        """Tells of a run that ended, or that couldn't be begun; `fields` tell in which statement."""
        status = getattr(error, "status", None)
        if status is None:
            self.log.error("statement-failed", kind=type(error).__name__, **fields)
        else:
            self.figures.ends[status] += 1
            self.log.error("engine-ended", status=status, meaning=meaning_of(status), **fields)
        if isinstance(self.link, FileLink):
            self.look_for_room(os.path.dirname(os.path.abspath(self.link.path)))

    def look_for_room(self, folder: str) -> None:
        """Tells of a disk that is full."""
        with contextlib.suppress(OSError):
            disk = os.statvfs(folder)
            if disk.f_bavail * disk.f_frsize < FULL_BELOW:
                self.log.error("disk-full", folder=folder, free=disk.f_bavail * disk.f_frsize)

    def read_catalog(self) -> None:
        """Learns the names of the store."""
        try:
            report = self.exchange(SHOW, True)
            self.figures.catalog = read_catalog(report)
        except StoreGone:
            raise
        except (Error, ValueError) as error:
            self.failed(error)
