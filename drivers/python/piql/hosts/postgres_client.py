"""Statements to a database of PostgreSQL, each with a limit of time, over psycopg2."""

import math
import os
import select
import time
from collections.abc import Mapping
from typing import TYPE_CHECKING, Any

from ..errors import InterfaceError
from ..interrupts import own
from .backend import Fault
from .passwords import check_quoted, shown, without_secrets

if TYPE_CHECKING:
    import psycopg2.extensions

Values = Mapping[str, object]
NO_CLIENT = (
    "stores in PostgreSQL are reached by psycopg2, which isn't installed: pip install psycopg2-binary, or for Debian's"
    " own Python apt-get install python3-psycopg2"
)
# A range is a walk along the index that ends at its limit, whatever the planner knows of the table.
OFF = ("enable_seqscan", "enable_bitmapscan", "enable_sort", "enable_hashjoin", "enable_mergejoin", "jit")
INCREMENTAL = "SELECT set_config(name, 'on', false) FROM pg_settings WHERE name = 'enable_incremental_sort'"
SESSION = "; ".join([*(f"SET {name} = off" for name in OFF), INCREMENTAL])
# A server that a write can't be made at, though it answers: it was the one that took writes.
READ_ONLY = "25006"
# What the server notes where a commit that is told hasn't reached the standby.
UNCOPIED = "canceling wait for synchronous replication"


class Lost(Exception):
    """The server didn't answer: the statement was made, or will be, or not."""


class Refused(Fault):
    """The server's word that a statement wasn't made, with its code."""

    def __init__(self, why: str, code: str) -> None:
        super().__init__(why)
        self.code = code


class PostgresClient:
    """One connection to the first host of a URL that answers, and that takes writes where they are wanted.

    A statement, with the connection that it may need, takes at most `patience` seconds. One host has a third of them.
    """

    def __init__(self, url: str, patience: float, session: str = SESSION, attributes: str = "read-write") -> None:
        try:
            import psycopg2
            import psycopg2.extensions
        except ImportError as error:
            raise InterfaceError(NO_CLIENT) from error
        self.library, self.url, self.session = psycopg2, url, session
        self.patience, self.seconds = patience, min(patience, max(1.0, patience / 3))
        check_quoted(url)
        try:
            words = psycopg2.extensions.parse_dsn(url)
        except psycopg2.ProgrammingError as error:
            # (What libpq says may have all of the URL in it, and so has its exception.)
            why = self.told_of(error)
        else:
            why = ""
        if why:
            raise InterfaceError(f"{shown(url)} names no database: {why}")
        words.setdefault("target_session_attrs", attributes)
        words.setdefault("application_name", "piql")
        self.places = places_of(words)
        self.connection: "psycopg2.extensions.connection | None" = None
        own(self)

    def let_go(self) -> None:
        """Closes what a child that was forked has of the connection. libpq would end the parent's session too."""
        if self.connection is not None and not self.connection.closed:
            with open(os.devnull) as nothing:
                os.dup2(nothing.fileno(), self.connection.fileno())

    def told_of(self, error: Exception) -> str:
        """What the server or the library says, without the lines that have values, and without a password."""
        diagnostics = getattr(error, "diag", None)
        text = getattr(diagnostics, "message_primary", None) or str(error)
        return without_secrets(text, self.url).strip()

    def connect(self, until: float) -> Any:
        """A connection to the first host that is as wanted."""
        why = "no host is named"
        for place in self.places:
            try:
                made = self.library.connect(**place, async_=True)
                soon = min(until, time.monotonic() + self.seconds)
                self.wait(made, soon)
                self.connection = made
                self.told(made, self.session, {}, soon)
                # It is asked first from now on.
                self.places = [place, *(other for other in self.places if other is not place)]
                return made
            except (self.library.Error, Lost) as error:
                why = self.told_of(error)
                self.close()
        raise Lost(why)

    def wait(self, connection: Any, until: float) -> None:
        """Waits for what a connection is at."""
        extensions = self.library.extensions
        while (state := connection.poll()) != extensions.POLL_OK:
            ready = select.poll()
            ready.register(connection.fileno(), select.POLLIN if state == extensions.POLL_READ else select.POLLOUT)
            left = until - time.monotonic()
            if not ready.poll(None if left == math.inf else max(0.0, left) * 1000):
                connection.close()
                raise Lost("the server took too long")

    def told(self, connection: Any, text: str, values: Values, until: float) -> list[tuple[Any, ...]]:
        """The rows of a statement."""
        cursor = connection.cursor()
        cursor.execute(text, values)
        self.wait(connection, until)
        if any(UNCOPIED in note for note in connection.notices):
            raise Lost("the wait for the standby was cut short")
        return cursor.fetchall() if cursor.description else []

    def run(
        self, text: str, values: Values = {}, until: float | None = None, seconds: float | None = None
    ) -> list[tuple[Any, ...]]:
        """The rows of a statement. Refused says that it wasn't made, Lost that nobody knows.

        It ends by a time of the monotonic clock, and the server has so many seconds for it.
        """
        end = time.monotonic() + self.patience if until is None else until
        connection = self.connection or self.connect(end)
        try:
            soon = time.monotonic() + (self.seconds if seconds is None else seconds)
            return self.told(connection, text, values, min(end, soon))
        except self.library.Error as error:
            why = self.told_of(error)
            if error.pgcode and error.pgcode != READ_ONLY and not connection.closed:
                raise Refused(why, error.pgcode) from None
            self.close()
            raise Lost(why) from None
        except BaseException:
            self.close()
            raise

    def close(self) -> None:
        """Closes the connection. What the server is at it may still do."""
        if self.connection is not None:
            self.connection.close()
        self.connection = None


def places_of(words: Mapping[str, str]) -> list[dict[str, str]]:
    """The words of a connection to each host that they name."""
    hosts, ports = (words.get(name, "").split(",") for name in ("host", "port"))
    places = []
    for number, host in enumerate(hosts):
        port = ports[number] if len(ports) == len(hosts) else ports[0]
        place = {**words, "host": host, "port": port}
        places.append({name: word for name, word in place.items() if word})
    return places
