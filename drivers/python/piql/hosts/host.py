"""The host of one engine: it answers each request of a run from backends, and counts what it answered."""

import contextlib
import subprocess
from collections import Counter
from collections.abc import Callable, Sequence
from typing import IO, Any

from ..allocator import engine_environment
from .backend import INTENT, UNSETTLED, Ask, Backend, Change, Count, Fault, Guard, Told
from .rounds import (
    HELLO,
    KNOWS_ROUNDS,
    entries_of,
    first_held,
    parts_body,
    place_body,
    read_gets,
    read_ranges,
    read_tests,
    values_body,
)
from .wire import (
    ANSWER_MOST,
    FAILURE,
    ROUNDS,
    SINGLE,
    BadRequest,
    Op,
    Request,
    Write,
    answer,
    done_body,
    length_of,
    number_body,
    pairs_body,
    places_body,
    read_range,
    read_request,
    read_room,
    read_write,
    value_body,
)

Read = Callable[[int], bytes]
Report = Callable[[bytes], object]


class Host:
    """The store of a run: a backend for each node, and where the keys of each begin."""

    def __init__(self, backends: Sequence[Backend], places: Sequence[bytes] = (b"",)) -> None:
        self.backends, self.places = backends, places
        # Operations by the single calls that they are, those of a round too; and the requests for them.
        self.calls: Counter[Op] = Counter()
        self.requests = 0
        self.entries = self.faults = 0
        # Why the last call that failed has no answer.
        self.why = ""
        # The intent and the changes of the statement at hand, which are kept until its last write.
        self.kept: tuple[bytes, list[Change]] | None = None

    def answer(self, request: Request) -> bytes:
        """The frame that answers PLACES or a call of the store."""
        try:
            body = self.body(request)
            if len(body) > ANSWER_MOST:
                raise Fault("the answer has more than 64 MiB")
        except Fault as fault:
            self.faults += 1
            self.why = str(fault)
            return FAILURE
        except BaseException:
            for backend in self.backends:
                backend.leave()
            raise
        return answer(body)

    def body(self, request: Request) -> bytes:
        """What answers a request."""
        op, node, body = request
        if op is Op.PLACES:
            return places_body(self.places)
        if op not in (*SINGLE, *ROUNDS) or node >= len(self.backends):
            raise BadRequest(f"request {op} of node {node}")
        if op is Op.COUNT and body == HELLO:
            return KNOWS_ROUNDS
        self.requests += 1
        backend = self.backends[node]
        if op is Op.WRITE:
            self.calls[op] += 1
            return done_body(self.written(backend, read_write(body)))
        self.make_kept(backend)
        return self.asked(op, backend, body) if op in ROUNDS else self.called(op, backend, body)

    def asked(self, op: Op, backend: Backend, body: bytes) -> bytes:
        """What answers several questions to a backend."""
        if op is Op.GETS:
            return values_body(self.told(Op.GET, backend, read_gets(body), None))
        if op is Op.RANGES:
            return parts_body(self.told(Op.RANGE, backend, read_ranges(body), []))
        tests = read_tests(body)
        place, entries = first_held(tests, backend.together([test.ask for test in tests]))
        self.entries += entries
        self.calls.update(Op.COUNT if isinstance(test.ask, Count) else Op.GET for test in tests[: place + 1])
        return place_body(place, entries)

    def told(self, op: Op, backend: Backend, asks: Sequence[Ask | None], nothing: Told) -> list[Any]:
        """The answers to questions, each of which is one operation, and `nothing` where none stands."""
        sent = [ask for ask in asks if ask is not None]
        self.calls[op] += len(sent)
        found = backend.together(sent) if len(sent) > 1 else list(map(backend.alone, sent))
        self.entries += sum(map(entries_of, found))
        told = iter(found)
        return [nothing if ask is None else next(told) for ask in asks]

    def called(self, op: Op, backend: Backend, body: bytes) -> bytes:
        """What answers a read of a backend, each of whose pairs is an entry."""
        self.calls[op] += 1
        if op is Op.GET:
            value = backend.get(body)
            self.entries += value is not None
            return value_body(value)
        if op is Op.RANGE:
            pairs = backend.range(*read_range(body))
            self.entries += len(pairs)
            return pairs_body(pairs)
        number = backend.count(*read_range(body))
        self.entries += number
        return number_body(number)

    def written(self, backend: Backend, write: Write) -> bool:
        """Whether a write is done. Those of a statement of several changes are kept, and made at once by the last one.

        They begin with the intent, put where there is none, and end with its removal; all between are made whatever
        their keys have. So each is known to be done before it is made. The engine reports behind the last one; where
        it or this process dies before, the content is the one before the statement.
        """
        is_intent, is_any = write.key == INTENT, write.guard is Guard.ANY
        if self.kept is None:
            # Over several stores the changes lie in others than the intent, so they are made one by one.
            if is_intent and write.guard is Guard.ABSENT and write.new is not None and len(self.backends) == 1:
                self.kept = write.new, []
                return True
            return backend.write(*write)
        if is_any and not is_intent:
            self.kept[1].append((write.key, write.new))
            return True
        if is_any and write.new is None:
            kept, self.kept = self.kept, None
            backend.commit(*kept)
            return True
        self.make_kept(backend)
        return backend.write(*write)

    def make_kept(self, backend: Backend) -> None:
        """Makes what is kept one by one, where something else is asked for than the rest of a statement."""
        if self.kept is None:
            return
        (intent, changes), self.kept = self.kept, None
        if not backend.write(INTENT, Guard.ABSENT, b"", intent):
            raise Fault(UNSETTLED)
        for key, new in changes:
            backend.write(key, Guard.ANY, b"", new)


def read_exactly(requests: IO[bytes], length: int) -> bytes:
    """So many bytes of a request."""
    data = requests.read(length)
    if len(data) < length:
        raise BadRequest("half a request")
    return data


def serve(host: Host, requests: IO[bytes], answers: IO[bytes], read: Read, report: Report) -> None:
    """Answers requests until the engine has closed its end. The script is what `read` gives for so many bytes."""
    while head := requests.read(4):
        request = read_request(read_exactly(requests, length_of(head.ljust(4, b"\0"))))
        if request.op is Op.READ:
            told = answer(read(read_room(request.body)))
        elif request.op is Op.REPORT:
            report(request.body)
            told = answer(b"")
        else:
            told = host.answer(request)
        answers.write(told)
        answers.flush()


def run(program: str, host: Host, read: Read, report: Report) -> int:
    """Runs an engine over a script to its end; its status, below 0 where a signal ended it."""
    how = {"stdin": subprocess.PIPE, "stdout": subprocess.PIPE, "env": engine_environment()}
    with subprocess.Popen([program, "run"], **how) as process:
        assert process.stdin is not None and process.stdout is not None
        try:
            serve(host, process.stdout, process.stdin, read, report)
        except BrokenPipeError:
            pass
        except BaseException:
            process.kill()
            raise
        finally:
            # What an engine that was killed doesn't read is lost with it.
            with contextlib.suppress(BrokenPipeError):
                process.stdin.close()
        return process.wait()
