"""The clients that come: who is taken, who is told why not, and the wait where the system has no room for one."""

import contextlib
import os
import resource
import select
import socket
import time
from collections.abc import Sequence

from ..counting import counted
from ..errors import OperationalError
from ..frames import BROKEN, GREETING, HELLO
from .clients import Client, user_of
from .rights import OWNER_ONLY
from .sockets import BACKLOG, Listener
from .watch import Watch

# For how many seconds no client is taken where the system has no descriptor or no memory for one.
PAUSE = 0.2
# How many descriptors a server needs beside those of its clients: for its engine, a copy, its cluster.
OWN_DESCRIPTORS = 27


def room_for(clients: int, sockets: int) -> int:
    """How many of so many clients the system gives descriptors for. Its softer limit is raised where it may be."""
    soft, hard = resource.getrlimit(resource.RLIMIT_NOFILE)
    own = OWN_DESCRIPTORS + sockets
    wanted = clients + own
    if soft < wanted:
        soft = wanted if hard == resource.RLIM_INFINITY else min(wanted, hard)
        with contextlib.suppress(OSError, ValueError):
            resource.setrlimit(resource.RLIMIT_NOFILE, (soft, hard))
    room = min(clients, resource.getrlimit(resource.RLIMIT_NOFILE)[0] - own)
    if room < 1:
        raise OperationalError(f"the system gives no descriptors for clients: {own} are the server's own")
    return room


class Coming:
    """The listeners, and at most `most` clients."""

    def __init__(self, listeners: Sequence[Listener], most: int, watch: Watch) -> None:
        self.listeners = {it.socket.fileno(): it for it in listeners}
        self.most, self.watch = most, watch
        self.paused_until = 0.0

    def wanted(self, now: float) -> dict[int, int]:
        """What the listeners are polled for."""
        mask = select.EPOLLIN if now >= self.paused_until else 0
        return dict.fromkeys(self.listeners, mask)

    def taken(self, descriptor: int, count: int) -> list[Client]:
        """The clients that wait and may come, where there are so many already."""
        listener, found = self.listeners[descriptor], []
        for _ in range(BACKLOG):
            try:
                made, _ = listener.socket.accept()
            except BlockingIOError:
                break
            except ConnectionError:
                continue
            except OSError as error:
                # No descriptor, or no memory: they wait until there is.
                self.paused_until = time.monotonic() + PAUSE
                self.watch.log.error("no-room-for-clients", why=error.strerror, seconds=PAUSE)
                break
            if client := self.greeted(made, listener, count + len(found)):
                found.append(client)
        return found

    def greeted(self, made: socket.socket, listener: Listener, count: int) -> Client | None:
        """A client that is told hello; or none, who is told why not."""
        client = Client(made, time.monotonic(), listener.place.right)
        if why := self.refusal(made, listener, count):
            self.watch.figures.clients_refused[why] += 1
            self.watch.log.warning("client-refused", client=client.number, user=user_of(made), why=why)
            client.push(BROKEN, why.encode())
            client.close()
            return None
        client.push(HELLO, GREETING)
        return client

    def refusal(self, made: socket.socket, listener: Listener, count: int) -> str:
        """Why a client isn't taken."""
        if count >= self.most:
            return f"there {'is' if self.most == 1 else 'are'} {counted(self.most, 'client')} already"
        if listener.place.mode == OWNER_ONLY and user_of(made) != os.geteuid():
            return "only the server's owner may connect"
        return ""

    def close(self) -> list[int]:
        """Takes the sockets away; their descriptors."""
        for listener in self.listeners.values():
            listener.close()
        found = list(self.listeners)
        self.listeners.clear()
        return found
