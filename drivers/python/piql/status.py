"""How a server is, asked outside its queue: `python -m piql status ADDRESS`, whose status is the health check.

0 says that the server is well; 1 that it answers and isn't, with why on standard error; 2 that nobody answers.
"""

import argparse
import json
import socket
import sys
import time

from .errors import Error, InternalError, OperationalError
from .frames import BROKEN, STATUS, FrameError, Gone, read_frame, write_frame
from .metrics import metrics

ANSWER_BYTES = 1 << 20
# How long it is waited between two looks for a server, in seconds.
PAUSE = 0.05
Told = dict[str, object]


def connected(path: str, until: float) -> socket.socket:
    """A client of a server, which may be about to begin."""
    while True:
        client = socket.socket(socket.AF_UNIX, socket.SOCK_STREAM)
        # What comes frame by frame has so long for each.
        client.settimeout(max(0.01, until - time.monotonic()))
        try:
            client.connect(path)
            return client
        except (ConnectionRefusedError, FileNotFoundError):
            client.close()
            if time.monotonic() > until:
                raise
        except BaseException:
            client.close()
            raise
        time.sleep(PAUSE)


def ask(path: str, seconds: float) -> Told:
    """What a server tells of itself. Raises an OperationalError where none answers within so many seconds."""
    try:
        with connected(path, time.monotonic() + seconds) as client:
            kind, text = read_frame(client, ANSWER_BYTES)
            if kind != BROKEN:
                write_frame(client, STATUS, b"")
                kind, text = read_frame(client, ANSWER_BYTES)
    except (OSError, ValueError, Gone, FrameError) as error:
        raise OperationalError(f"no server answers at {path}: {error}") from error
    if kind == BROKEN:
        raise OperationalError(f"the server at {path} says: {text.decode(errors='replace')}")
    return read_told(kind, text)


def read_told(kind: bytes, text: bytes) -> Told:
    """What an answer says."""
    try:
        told = json.loads(text)
    except (ValueError, RecursionError):
        told = None
    if kind != STATUS or not isinstance(told, dict):
        raise InternalError("what answers there is no piql-serve of this version")
    return told


def lines(told: Told) -> list[str]:
    """What is told, one line for each number or word."""
    found = []
    for key, value in told.items():
        inner = value if isinstance(value, dict) else {"": value}
        found += [f"{key}{'.' * bool(name)}{name} {it}" for name, it in inner.items() if it is not None]
    return found


def troubles(told: Told, stuck: float) -> list[str]:
    """Why a server isn't well."""
    at_hand, lease = told.get("at_hand"), told.get("lease")
    found = []
    if isinstance(at_hand, dict) and at_hand.get("seconds", 0) > stuck:
        found.append(f"a statement is at hand for {at_hand['seconds']} seconds")
    if told.get("engine") == "none":
        found.append("the last run of the engine ended, and the next statement begins another")
    if isinstance(lease, dict) and not lease.get("held"):
        found.append("the lease of the store is lost")
    if told.get("clients") == told.get("clients_most"):
        found.append("no more clients are taken")
    return found


def main(words: list[str] | None = None) -> int:
    """The command."""
    parser = argparse.ArgumentParser(prog="python -m piql status", description="How a piql-serve is.")
    parser.add_argument("address", help="unix:SOCKET, or the path of the socket")
    parser.add_argument("--metrics", action="store_true", help="in the text format of Prometheus")
    parser.add_argument("--timeout", type=float, default=5.0, metavar="SECONDS", help="the longest wait (%(default)g)")
    parser.add_argument("--stuck", type=float, default=30.0, metavar="SECONDS", help="what is too long (%(default)g)")
    given = parser.parse_args(words)
    try:
        told = ask(given.address.removeprefix("unix:"), given.timeout)
    except Error as error:
        print(f"piql: {error}", file=sys.stderr)
        return 2
    text = "\n".join(metrics(told) if given.metrics else lines(told))
    # A path may have bytes that are no UTF-8.
    print(text.encode(errors="backslashreplace").decode())
    found = troubles(told, given.stuck)
    for why in found:
        print(f"piql: not well: {why}", file=sys.stderr)
    return 1 if found else 0
