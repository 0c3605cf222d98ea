"""Requests to a cluster of etcd, over the JSON gateway of its members (etcd 3.4 and later), by the standard library.

Whatever a member answers is tested: one that answers in another form, or too late, is left as one that doesn't answer.
"""

import http.client
import json
import time
from base64 import b64decode, b64encode
from collections.abc import Callable, Sequence
from typing import Any, NamedTuple, TypeVar

from .backend import Fault, Unreachable
from .timed_http import TimedConnection

PAUSE = 0.02
# More than the longest answer of an etcd to the longest range of an engine.
ANSWER_MOST = 1 << 27
# gRPC's codes of answers that another member would give too: bad arguments, a lease or a revision that is gone.
FINAL = {3, 5, 6, 9, 11}
WRONG = (OSError, http.client.HTTPException, ValueError)
# What reading an answer of another form raises.
MISREAD = (ArithmeticError, AttributeError, LookupError, TypeError, ValueError)
Body = dict[str, Any]
T = TypeVar("T")


class Stored(NamedTuple):
    """A pair with the revisions at which it was made and changed last."""

    key: bytes
    value: bytes
    created: int
    changed: int


class Told(NamedTuple):
    """What a transaction answers: whether its comparisons held, the cluster's revision, and what each read found."""

    is_made: bool
    revision: int
    found: list[list[Stored]]


class Refused(Fault):
    """A member's answer that the request can't be met, by any of them: it wasn't made."""


class EtcdClient:
    """Requests to whichever member answers. `seconds` is for how long one member may take."""

    def __init__(self, endpoints: Sequence[str], seconds: float = 2.0) -> None:
        self.endpoints, self.seconds = list(endpoints), seconds
        self.at = 0
        self.connection: TimedConnection | None = None

    def post(self, path: str, body: Body, read: Callable[[Body], T], patience: float) -> T:
        """What the first member answers that does so within so many seconds. The request may be made twice."""
        text, until = json.dumps(body), time.monotonic() + patience
        while True:
            try:
                return self.ask(path, text, read, until)
            except WRONG as error:
                self.next_member()
                if time.monotonic() + PAUSE >= until:
                    raise Unreachable(f"no member answers: {error}") from error
                time.sleep(PAUSE)

    def once(self, path: str, body: Body, read: Callable[[Body], T], patience: float) -> T:
        """What one member answers. Where it doesn't, the request may still be made, at any time."""
        try:
            return self.ask(path, json.dumps(body), read, time.monotonic() + patience)
        except WRONG as error:
            self.next_member()
            raise Fault(f"a member didn't answer: {error}") from error

    def next_member(self) -> None:
        """Leaves the member that is asked."""
        self.close()
        self.at = (self.at + 1) % len(self.endpoints)

    def ask(self, path: str, text: str, read: Callable[[Body], T], until: float) -> T:
        """What the member that is asked answers by a time."""
        connection = self.connection or self.new_connection()
        connection.end_by(min(until, time.monotonic() + self.seconds))
        connection.request("POST", path, text, {"Content-Type": "application/json"})
        answer = connection.getresponse()
        told = read_object(answer.read(ANSWER_MOST + 1))
        if answer.status == 200:
            return read_by(read, told)
        code, why = told.get("code"), f"{told.get('message') or told.get('error')!s:.200}"
        if isinstance(code, int) and code in FINAL:
            raise Refused(why)
        raise ValueError(f"status {answer.status}, {why}")

    def new_connection(self) -> TimedConnection:
        """A connection to the member that is asked. It connects with its first request."""
        host, _, port = self.endpoints[self.at].rpartition(":")
        self.connection = TimedConnection(host.strip("[]"), int(port))
        return self.connection

    def close(self) -> None:
        """Closes the connection."""
        if self.connection is not None:
            self.connection.close()
        self.connection = None


def read_object(text: bytes) -> Body:
    """The object that an answer is."""
    if len(text) > ANSWER_MOST:
        raise ValueError("an answer that is too long")
    try:
        told = json.loads(text)
    except RecursionError as error:
        raise ValueError("an answer that is too deep") from error
    if not isinstance(told, dict):
        raise ValueError("an answer that is no object")
    return told


def read_by(read: Callable[[Body], T], told: Body) -> T:
    """What an answer says. One of another form is none."""
    try:
        return read(told)
    except MISREAD as error:
        raise ValueError(f"an answer of another form ({type(error).__name__})") from error


# The parts of requests and answers. The gateway writes bytes in base64 and numbers as texts, and leaves out zeros.


def coded(data: bytes) -> str:
    """Bytes as the gateway takes them."""
    return b64encode(data).decode()


def is_absent(key: bytes) -> Body:
    """The comparison that a key isn't there."""
    return {"key": coded(key), "target": "CREATE", "result": "EQUAL", "create_revision": "0"}


def has_value(key: bytes, value: bytes) -> Body:
    """The comparison that a key has just this value."""
    return {"key": coded(key), "target": "VALUE", "result": "EQUAL", "value": coded(value)}


def looking(key: bytes, **more: object) -> Body:
    """The part of a transaction that reads a key, or a range."""
    return {"request_range": {"key": coded(key), **more}}


def putting(key: bytes, value: bytes, **more: object) -> Body:
    """The part that gives a key a value."""
    return {"request_put": {"key": coded(key), "value": coded(value), **more}}


def removing(key: bytes) -> Body:
    """The part that removes a key."""
    return {"request_delete_range": {"key": coded(key)}}


def read_pairs(found: Body) -> list[Stored]:
    """The pairs of a range's answer."""
    return [
        Stored(
            b64decode(pair["key"], validate=True),
            b64decode(pair.get("value", ""), validate=True),
            int(pair["create_revision"]),
            int(pair["mod_revision"]),
        )
        for pair in found.get("kvs", [])
    ]


def read_found(told: Body) -> list[Stored]:
    """The pairs that a read of its own answers."""
    int(told["header"]["revision"])
    return read_pairs(told)


def read_told(told: Body) -> Told:
    """What a transaction answers."""
    parts = [part["response_range"] for part in told.get("responses", []) if "response_range" in part]
    is_made = told.get("succeeded", False)
    if not isinstance(is_made, bool):
        raise ValueError("neither made nor not made")
    return Told(is_made, int(told["header"]["revision"]), [read_pairs(part) for part in parts])


def reading(parts: int) -> Callable[[Body], Told]:
    """Reads the answer of a transaction that makes so many reads, if its comparisons hold, and nothing else."""

    def read(told: Body) -> Told:
        found = read_told(told)
        if len(found.found) != (parts if found.is_made else 0):
            raise ValueError("another number of reads")
        return found

    return read


def read_change(told: Body) -> Told:
    """Reads the answer of a transaction that changes something if its comparisons hold, and else reads one key."""
    found = read_told(told)
    if len(found.found) != (0 if found.is_made else 1):
        raise ValueError("another number of reads")
    return found
