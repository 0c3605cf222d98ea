"""piql-serve: hands the statements of many connections, one after the other, to one run of the engine over one store.

    piql-serve STORE SOCKET    serves until SIGTERM or SIGINT; then it ends the statement at hand and closes the store

The store is a file, or the URL of one in a cluster, as piql.connect takes it. Clients connect by
piql.connect("unix:SOCKET"). Only the owner of the server may. A second server on the store, or on the socket, ends at
once; with --standby one on the store of a cluster waits until it is free. One thread has the sockets, and another one
the engine: what was asked waits in the order in which it came, and a client has one statement there at a time. A server
keeps the lease of its cluster while it is idle, but not while its engine stands still in the middle of a statement.
"""

import math
import contextlib
import os
import signal
import sys
from collections.abc import Sequence

from .errors import Error
from .hosts.link import HostLink
from .hosts.urls import is_url, open_link
from .links import FileLink
from .server.coming import room_for
from .server.figures import Figures
from .server.log import Log
from .server.rights import Place
from .server.service import Service
from .server.settings import Settings, read_words
from .server.sockets import Listener, check_beside, check_place
from .server.telling import shown_store, told_while_opening
from .server.watch import Watch
from .version import VERSION

# For how many seconds a file that another process has is tried again.
PATIENCE = 5.0
# Files and sockets are the owner's alone, the engine's files too.
UMASK = 0o077


def opened(given: Settings) -> FileLink | HostLink:
    """The store with a run over it. A standby waits until nobody has it; it holds nothing meanwhile."""
    if not is_url(given.store):
        return FileLink(given.store, given.program, PATIENCE)
    link = open_link(given.store, given.program, math.inf if given.standby else PATIENCE)
    try:
        link.begin()
    except BaseException:
        link.close()
        raise
    link.timeout = PATIENCE
    return link


def fill_streams() -> None:
    """Has the three standard streams be there, so that no file or socket takes the number of one that was closed."""
    for number in range(3):
        try:
            os.fstat(number)
        except OSError:
            os.open(os.devnull, os.O_RDWR)


def say(text: str) -> None:
    """Writes a line to standard output, if somebody reads it; paths as they were given."""
    with contextlib.suppress(OSError):
        os.write(1, os.fsencode(f"piql-serve: {text}\n"))


def check(given: Settings) -> None:
    """Refuses words with which no server can be, before anything is touched."""
    for place in given.places:
        check_place(place.path)
        if not is_url(given.store):
            check_beside(place.path, given.store)


def listening(places: Sequence[Place]) -> list[Listener]:
    """The sockets, or none of them."""
    made: list[Listener] = []
    try:
        for place in places:
            made.append(Listener(place))
    except BaseException:
        for listener in made:
            listener.close()
        raise
    return made


def begun(given: Settings) -> Service:
    """A server whose store is open, and that listens."""
    watch = Watch(Log(given.log), Figures())
    room = room_for(given.clients, len(given.places))
    if room < given.clients:
        watch.log.warning("few-descriptors", clients=room, asked=given.clients)
    with told_while_opening(watch.log):
        link = opened(given)
    try:
        listeners = listening(given.places)
        store, sockets = shown_store(given.store), " ".join(map(str, given.places))
        watch.log.info("begun", version=VERSION, store=store, sockets=sockets, clients=room, idle=given.idle)
        return Service(link, listeners, given._replace(clients=room), watch)
    except BaseException:
        link.close()
        raise


def main(words: list[str] | None = None) -> int:
    """The command."""
    fill_streams()
    given = read_words(words)
    os.umask(UMASK)
    try:
        # What was begun of an opening is ended with it, and completed by the next.
        for number in (signal.SIGTERM, signal.SIGINT):
            signal.signal(number, lambda _number, _frame: sys.exit(0))
        check(given)
        if given.standby:
            say(f"waits for {shown_store(given.store)}")
        service = begun(given)
        say(f"{shown_store(given.store)} at {', '.join(place.path for place in given.places)}")
        return service.run()
    except (Error, OSError, RuntimeError) as error:
        print(f"piql-serve: {error}", file=sys.stderr)
        return 1


if __name__ == "__main__":
    sys.exit(main())
