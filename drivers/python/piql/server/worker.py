"""The one thread that has the run of the engine: it makes the statements that wait, in the order in which they came.

A client has at most one request here, so the order is a turn of each: a statement waits for at most one of every other
client, or for those of one turn of a client that has sent several together.
"""

import queue
import threading
import time

from ..errors import Error, StoreGone
from ..frames import COPIED, ENDED, REPORT, FrameError
from ..hosts.passwords import without_secrets
from ..hosts.urls import is_url
from ..lots import Asked, Outcome
from .clients import Answer, Ticket, ended_frame
from .figures import ending_of
from .indexes import REFUSED, wanted
from .log import Field
from .loop import Loop
from .lots import PLAIN, Lot
from .observed import Observed
from .requests import DEFINING, Request
from .settings import Settings
from .watch import Watch

# How often an idle server looks whether its lease is to be renewed, in seconds.
BEAT = 1.0
FAULT = "the server met a fault of its own. A statement was made whole or not at all; a copy wasn't made"


class Worker:
    """The requests that wait, and the thread that makes them until `end`; then it closes the store."""

    def __init__(self, store: Observed, loop: Loop, watch: Watch, given: Settings) -> None:
        self.store, self.loop, self.watch = store, loop, watch
        self.slow, self.index_rows, self.name = given.slow, given.index_rows, given.store
        # The store's file isn't there any more: nothing can be made.
        self.is_gone = False
        self.waiting: queue.SimpleQueue[Ticket | None] = queue.SimpleQueue()
        # What is made now.
        self.at_hand: Ticket | None = None
        self.thread = threading.Thread(target=self.run, name="worker", daemon=True)

    def end(self) -> None:
        """Has the thread end behind what waits, all turns of several statements among it."""
        self.waiting.put(None)

    def run(self) -> None:
        """The thread. Where it ends by itself, the server ends."""
        try:
            self.store.read_catalog()
            while not self.is_gone and (ticket := self.next_one()) is not None:
                if self.is_whole(ticket) and self.loop.begin(ticket):
                    self.make(ticket)
        except StoreGone as error:
            self.gone(error)
        except Exception as error:
            self.watch.log.error("fault", kind=type(error).__name__)
        finally:
            self.store.close()
            self.loop.polls.wake()

    def is_whole(self, ticket: Ticket) -> bool:
        """Whether several statements are such, those of their next turn. If not, their client is left."""
        if not isinstance(ticket.request, Lot):
            return True
        try:
            ticket.request.prepare()
        except FrameError as error:
            self.loop.refuse(ticket, str(error))
            return False
        return True

    def make(self, ticket: Ticket) -> None:
        """Makes what was asked for, and tells what became of it."""
        self.at_hand = ticket
        if isinstance(ticket.request, Lot):
            return self.make_turn(ticket, ticket.request)
        answer = self.answer(ticket)
        self.let_go(ticket, answer)
        self.loop.tell(ticket, answer)

    def let_go(self, ticket: Ticket, answer: Answer) -> None:
        """Nothing is at hand any more."""
        with self.loop.guard:
            self.at_hand = None
            is_killed, ticket.is_killed = ticket.is_killed, False
        if is_killed and answer[0] != ENDED:
            # Its report came just before its run was ended, which is no run for the next statement.
            self.store.drop_run()

    def make_turn(self, ticket: Ticket, lot: Lot) -> None:
        """Makes those of several statements whose turn it is; what ends a run ends them all."""
        right, first = ticket.client.right, lot.at_hand()
        answers: list[Answer] = []
        ended: Answer | None = None
        try:
            if first.word not in right.takes:
                answers.append(ended_frame(right.refusal()))
            elif first.word in PLAIN:
                self.answer_all(ticket, lot, answers)
            else:
                answers.append(self.answered(ticket, first))
        except Exception as error:
            ended = self.failed(ticket, error)
        self.let_go(ticket, ended or answers[-1])
        self.loop.tell_turn(ticket, lot, answers, ended)

    def answer_all(self, ticket: Ticket, lot: Lot, answers: list[Answer]) -> None:
        """Answers the statements of a turn, which define nothing. What ends the run is raised."""
        errors: list[Error] = []

        def tell(outcome: Outcome) -> None:
            if errors:
                return
            if isinstance(outcome, Error):
                errors.append(outcome)
                return
            answers.append((REPORT, outcome.encode()))
            self.counted(ticket, lot.at_hand(), outcome)
            lot.reported += 1
            ticket.begun = time.monotonic()

        self.store.exchange_all([Asked(it.text, it.reads) for it in lot.turn()], tell)
        if errors:
            raise errors[0]

    def next_one(self) -> Ticket | None:
        """The next request; while there is none, the lease of a cluster is kept. At the end all turns are made."""
        while True:
            try:
                found = self.waiting.get(timeout=BEAT)
            except queue.Empty:
                self.store.keep()
                continue
            if found is not None or self.waiting.empty():
                return found
            self.waiting.put(None)

    def answer(self, ticket: Ticket) -> Answer:
        """What a request is answered."""
        assert isinstance(ticket.request, Request)
        try:
            return self.answered(ticket, ticket.request)
        except Exception as error:
            return self.failed(ticket, error)

    def answered(self, ticket: Ticket, request: Request) -> Answer:
        """What a request is answered, unless it ends the run."""
        if request.is_copy:
            self.store.backup(request.path())
            return COPIED, b""
        if request.word == "PREPARE" and (why := self.index_refusal(request)):
            return ended_frame(why)
        report = self.store.exchange(request.text, request.reads)
        self.counted(ticket, request, report)
        return REPORT, report.encode()

    def failed(self, ticket: Ticket, error: Exception) -> Answer:
        """What is told of a statement that has no report."""
        if isinstance(error, StoreGone):
            self.gone(error)
            return ended_frame(str(error))
        if isinstance(error, (Error, OSError, ValueError)):
            self.store.failed(error, **self.fields(ticket))
            text = without_secrets(str(error), self.name) if is_url(self.name) else str(error)
            return ended_frame(text, getattr(error, "status", None))
        # The link has ended its run. What the error says is for nobody: it may have anything in it.
        self.watch.log.error("fault", kind=type(error).__name__, **self.fields(ticket))
        return ended_frame(FAULT)

    def gone(self, error: StoreGone) -> None:
        """Ends the server, since the file was removed or replaced beneath it."""
        self.is_gone = True
        self.watch.log.error("store-gone", why=str(error))

    def index_refusal(self, request: Request) -> str:
        """Why a PREPARE isn't made, or nothing. Where the rows can't be counted, the log says so, and it is made."""
        rows = max(self.index_rows, request.rows)
        index = wanted(self.store, request, rows)
        if index is None or index.is_large is False:
            return ""
        if index.is_large is None:
            self.watch.log.warning("index-not-counted", table=index.table)
            return ""
        self.watch.figures.limits["index-rows"] += 1
        self.watch.log.warning("index-refused", table=index.table, rows=rows)
        return REFUSED.format(table=index.table, columns=index.columns, rows=f"{rows:,}")

    def fields(self, ticket: Ticket) -> dict[str, Field]:
        """What the log tells of a statement: its first word, its name if the store has it, and its times in seconds."""
        name = ticket.request.name()
        known = name if name in self.watch.figures.catalog.names else None
        now = time.monotonic()
        seconds = 0.0 if ticket.begun is None else now - ticket.begun
        return {"statement": ticket.request.word, "name": known, "seconds": seconds, "wait": ticket.wait(now)}

    def counted(self, ticket: Ticket, request: Request, report: str) -> None:
        """Counts a statement that has its report; one that took long is told."""
        figures, word = self.watch.figures, request.word
        seconds = time.monotonic() - ticket.since()
        figures.statements[word] += 1
        figures.seconds += seconds
        is_refused = report.find(" refused ", report.rfind("\n", 0, -1) + 1) >= 0
        if is_refused:
            figures.refusals[ending_of(report).refusal] += 1
        elif word in DEFINING:
            self.store.read_catalog()
        if seconds >= self.slow:
            figures.slow += 1
            end = ending_of(report)
            self.watch.log.warning("slow", **self.fields(ticket), bound=end.bound, used=end.used)
