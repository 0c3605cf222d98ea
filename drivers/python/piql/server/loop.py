"""The thread that has all sockets: it takes clients and their frames, and leaves those that don't move."""

import collections
import select
import threading
import time
from collections.abc import Sequence
from typing import Protocol

from ..frames import BROKEN, MANY, STATUS, FrameError
from .clients import Answer, Client, Ticket, ended_frame
from .coming import Coming
from .log import Log
from .lots import Lot
from .polls import Polls
from .requests import Request

# How often it is looked for clients that are overdue, in seconds.
TICK = 0.1
# How many frames of one client are taken before those of the others.
AT_ONCE = 16
SILENT = "nothing came for {seconds:g} seconds"
HALF = "a frame wasn't whole after {seconds:g} seconds"
UNREAD = "nothing of an answer was read for {seconds:g} seconds"
STOPS = "the server stops"


class Asked(Protocol):
    """Who answers what clients ask for."""

    def give(self, ticket: Ticket) -> None:
        """Gives a request its turn."""

    def status(self) -> bytes:
        """How the server is."""

    def look(self, now: float) -> None:
        """Is called now and then."""


class Loop:
    """All clients. One that is silent for `idle` seconds is left."""

    def __init__(self, coming: Coming, idle: float, service: Asked, log: Log) -> None:
        self.coming, self.idle, self.service, self.log = coming, idle, service, log
        self.clients: dict[int, Client] = {}
        self.polls = Polls()
        # Clients whose answer left something to do. The guard is for what both threads touch of a client.
        self.stirred: collections.deque[Client] = collections.deque()
        self.guard = threading.Lock()
        self.next_look = 0.0

    # Both threads

    def begin(self, ticket: Ticket) -> bool:
        """Whether a request is still to be made; from here on it can't be told any more that it wasn't."""
        with self.guard:
            if ticket.is_told:
                return False
            ticket.begun = time.monotonic()
            if isinstance(ticket.request, Lot):
                ticket.request.take(ticket.client.right.takes)
            return True

    def tell(self, ticket: Ticket, answer: Answer, unless_begun: bool = False) -> None:
        """Tells a client what became of its request, unless it was told already."""
        client = ticket.client
        with self.guard:
            if ticket.is_told or unless_begun and ticket.begun is not None:
                return
            ticket.is_told = True
            client.ticket = None
            client.push_all(ticket.answers(answer))
        self.stir(client)

    def tell_turn(self, ticket: Ticket, lot: Lot, answers: Sequence[Answer], ended: Answer | None) -> None:
        """Tells the answers of a turn of several statements, and what ended it; if nothing did, the rest has a turn.

        Where the client takes its answers slowly, the next turn waits until it has.
        """
        client = ticket.client
        with self.guard:
            if ticket.is_told:
                return
            client.push_all(answers)
            if ended is not None:
                lot.answered, lot.taken = lot.answered + len(answers), 1
                client.push_all(ticket.answers(ended))
            is_over = ended is not None or not lot.end_turn() or client.is_lost
            if is_over:
                ticket.is_told, client.ticket = True, None
            ticket.begun, ticket.is_parked = None, bool(client.unsent)
        if is_over or ticket.is_parked:
            self.stir(client)
        else:
            self.service.give(ticket)

    def refuse(self, ticket: Ticket, why: str) -> None:
        """Has the client of a request that is none be left."""
        ticket.why = why
        self.stir(ticket.client)

    def stir(self, client: Client) -> None:
        """Has the loop's thread go on with a client, if there is something to do."""
        if client.unsent or client.received or client.is_ending or client.ticket and client.ticket.why:
            self.stirred.append(client)
            self.polls.wake()

    # The loop's own thread

    def turn(self) -> None:
        """Does what there is to do; where there is nothing, waits for it for a moment."""
        for descriptor in self.polls.wait(0 if self.stirred else TICK):
            if descriptor in self.clients:
                self.moved(self.clients[descriptor])
            elif descriptor in self.coming.listeners:
                self.take_clients(descriptor)
        for _ in range(len(self.stirred)):
            self.go_on(self.stirred.popleft())
        if time.monotonic() >= self.next_look:
            self.look_round()

    def moved(self, client: Client) -> None:
        """A client has sent something, takes something, or has gone."""
        with self.guard:
            if client.unsent:
                client.flush()
            else:
                client.receive()
            ticket = client.ticket
            is_free = ticket is not None and ticket.is_parked and not client.unsent
            if ticket is not None and is_free:
                ticket.is_parked = False
        if ticket is not None and is_free:
            self.service.give(ticket)
        self.go_on(client)

    def go_on(self, client: Client) -> None:
        """Takes the frames that are there, and polls for what is to come."""
        if client.is_closed:
            return
        if (ticket := client.ticket) is not None and ticket.why:
            client.ticket, ticket.is_told = None, True
            self.leave_by(client, ticket.why)
        self.take_frames(client)
        if client.is_ending and client.is_ready():
            self.leave(client)
        else:
            self.polls.set(client.socket.fileno(), client.wanted())

    def take_frames(self, client: Client) -> None:
        """Takes the frames that are there: one of them waits for its turn, and the others wait for it."""
        try:
            for _ in range(AT_ONCE):
                frame = client.next_frame() if client.is_ready() else None
                if frame is None:
                    return
                self.take_frame(client, *frame)
            self.stirred.append(client)
        except FrameError as error:
            self.leave_by(client, str(error))

    def leave_by(self, client: Client, why: str) -> None:
        """Leaves a client that has sent what is no frame."""
        self.log.warning("client-left", client=client.number, why=why)
        self.break_off(client, why)

    def take_frame(self, client: Client, kind: bytes, text: bytes) -> None:
        """Gives a request its turn, if its client may make it. How the server is, is told at once."""
        if kind == STATUS:
            with self.guard:
                client.push(STATUS, self.service.status())
            return
        request = Lot(text) if kind == MANY else Request(kind, text)
        if kind == MANY or request.word in client.right.takes:
            client.ticket = Ticket(client, request, time.monotonic())
            self.service.give(client.ticket)
        else:
            self.log.warning("not-allowed", client=client.number, right=client.right.value, statement=request.word)
            with self.guard:
                client.push(*ended_frame(client.right.refusal()))

    def break_off(self, client: Client, why: str) -> None:
        """Tells a client why it is left. Nothing that it sends from now on is taken."""
        with self.guard:
            client.received.clear()
            client.is_ending = True
            client.push(BROKEN, why.encode())

    def leave(self, client: Client) -> None:
        """Lets a client go."""
        descriptor = client.socket.fileno()
        self.polls.forget(descriptor)
        del self.clients[descriptor]
        self.log.debug("client-gone", client=client.number, clients=len(self.clients))
        with self.guard:
            client.close()

    def take_clients(self, listener: int) -> None:
        """Takes the clients that wait at a listener."""
        for client in self.coming.taken(listener, len(self.clients)):
            self.clients[client.socket.fileno()] = client
            self.polls.set(client.socket.fileno(), select.EPOLLIN)
            self.log.debug("client-begun", client=client.number, clients=len(self.clients))
        self.poll_listeners()

    def poll_listeners(self) -> None:
        """Polls the listeners, unless the system has no room for a client just now."""
        for descriptor, mask in self.coming.wanted(time.monotonic()).items():
            self.polls.set(descriptor, mask)

    def look_round(self) -> None:
        """Leaves the clients that are overdue, and looks whether clients can be taken."""
        now = time.monotonic()
        self.next_look = now + TICK
        for client in list(self.clients.values()):
            if client.is_idle() and (limit := client.overdue(now, self.idle)):
                self.give_up(client, limit)
        self.poll_listeners()
        self.service.look(now)

    def give_up(self, client: Client, limit: float) -> None:
        """Leaves a client that stood still for so many seconds."""
        why = (UNREAD if client.unsent else HALF if client.received else SILENT).format(seconds=limit)
        self.log.info("client-left", client=client.number, why=why)
        self.let_go(client, why)

    def let_go(self, client: Client, why: str) -> None:
        """Leaves a client. Where a whole frame of it is on its way, that is answered first."""
        if client.unsent:
            return self.leave(client)
        client.hang_up()
        with self.guard:
            client.receive()
        self.take_frames(client)
        if client.ticket is None:
            self.break_off(client, why)
        client.is_ending = True
        self.go_on(client)

    # The end

    def close_door(self) -> None:
        """Takes no more clients, and no more frames but those that are on their way."""
        for descriptor in self.coming.close():
            self.polls.forget(descriptor)
        for client in list(self.clients.values()):
            if client.ticket is None:
                self.let_go(client, STOPS)
            else:
                client.hang_up()
                client.is_ending = True

    def tell_all(self, answer: Answer, unless_begun: bool = False) -> None:
        """Tells all clients that have asked for something."""
        for client in list(self.clients.values()):
            if (ticket := client.ticket) is not None:
                self.tell(ticket, answer, unless_begun)

    def close(self) -> None:
        """Leaves all clients."""
        for client in list(self.clients.values()):
            self.leave(client)
        self.polls.close()
