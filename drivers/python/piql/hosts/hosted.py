"""A run of the engine whose host is this process: a statement goes in, its report comes out, its calls are answered.

The engine asks for more of its script only once the report of all that it had is out. So a statement is handed out as
the answer of such a request, and the next one tells that its report is whole.
"""

import contextlib
import os
import time
from collections.abc import Callable

from ..engine import CHUNK, Engine, EngineEnded, Stalled
from ..errors import InternalError
from ..wholeness import UNMATCHED, Reports
from .host import Host
from .wire import BadRequest, Op, Request, answer, length_of, read_request, read_room


class HostedEngine(Engine):
    """A process that was begun, has written its opening line, and asks for a statement.

    `seconds` is for how long it may ask for nothing, and a call of its store may take.
    """

    seconds: float

    def __init__(self, program: str, host: Host, seconds: float) -> None:
        # How many bytes of its script it has, and has room for next.
        self.host, self.handed, self.room = host, 0, 0
        super().__init__(program, ["run"], seconds)

    def opened(self) -> bytes:
        """The opening line."""
        return self.reported(memoryview(b""))

    def answered(self, statement: bytes) -> bytes:
        """The report of one statement."""
        return self.reported(self.hand_out(memoryview(statement)))

    def reported(self, rest: memoryview) -> bytes:
        """What is reported of a statement whose rest is still to be handed out."""
        text = bytearray()
        self.serve(rest, text, text.extend)
        return bytes(text)

    def answer_all(self, left: memoryview, reports: Reports) -> None:
        """Hands out several statements, and takes their reports as they come."""
        begin = self.handed

        def take(part: bytes) -> None:
            reports.sent = self.handed - begin
            reports.take(part)

        self.serve(self.hand_out(left), reports.text, take)
        if not reports.is_whole():
            raise InternalError(UNMATCHED)

    def read_out(self, _: Reports) -> None:
        """Ends the process. It waits behind each report until that is taken, so none is left in the pipe."""
        self.kill()

    def hand_out(self, statements: memoryview) -> memoryview:
        """Answers the READ that is waiting by what it has room for; the rest."""
        part = bytes(statements[: self.room])
        self.write(answer(part))
        self.handed += len(part)
        return statements[len(part) :]

    def serve(self, rest: memoryview, text: bytearray, take: Callable[[bytes], object]) -> None:
        """Serves the engine until it has taken the rest and asks for more; `text` is what was taken of the report."""
        while True:
            try:
                request = read_request(self.receive())
            except EOFError as end:
                raise EngineEnded(super().close(), bytes(text)) from end
            if request.op is Op.READ:
                self.room = read_room(request.body)
                if not rest:
                    return
                rest = self.hand_out(rest)
            elif request.op is Op.REPORT:
                take(request.body)
                self.write(answer(b""))
            else:
                self.answer_call(request)

    def answer_call(self, request: Request) -> None:
        """Answers a call of the store."""
        begun = time.monotonic()
        told = self.host.answer(request)
        if time.monotonic() - begun > self.seconds:
            raise Stalled(f"a call of the store took more than {self.seconds:g} seconds")
        self.write(told)

    def receive(self) -> bytes:
        """The next request, without its length. There is at most one that isn't answered, so nothing is behind it."""
        until = self.end_of_step()
        data = self.some(until)
        while len(data) < 4 or len(data) < 4 + length_of(data[:4]):
            data += self.some(until)
        if len(data) > 4 + length_of(data[:4]):
            raise BadRequest("bytes behind a request")
        return data[4:]

    def some(self, until: float | None) -> bytes:
        """Bytes of a request. They have a limit of time, since an engine that is stopped asks for nothing."""
        self.wait(self.ready, until)
        data = os.read(self.out_of, CHUNK)
        if not data:
            raise EOFError
        return data

    def close(self) -> int:
        """Ends the script, and waits for the end of the run; its status. One that doesn't end is killed."""
        if self.process.poll() is None:
            with contextlib.suppress(Stalled):
                self.write(answer(b""))
        return super().close()
