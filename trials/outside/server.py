"""Whatever clients send to piql-serve, each whole frame has its answer in order, and others are served meanwhile."""

import atexit
import functools
import random
import shutil
import socket
import tempfile
from pathlib import Path

from piql.frames import (
    BACKUP,
    BROKEN,
    ENDED,
    HEAD,
    HELLO,
    LIMITED,
    LIMITS,
    REPORT,
    STATEMENT,
    STATUS,
    FrameError,
    Gone,
    read_frame,
)
from served import Served, stub_program

# A client that waits longer than this isn't served.
MOST = 20.0
Sent = tuple[bytes, bytes, set[bytes]]


@functools.cache
def address() -> str:
    """The socket of the one server that all cases share, over what stands for the engine."""
    folder = Path(tempfile.mkdtemp(prefix="piql-outside-"))
    atexit.register(shutil.rmtree, folder, ignore_errors=True)
    server = Served(folder / "store.db", folder / "socket", "--log", "error", program=stub_program(folder))
    atexit.register(server.end)
    return str(folder / "socket")


def client() -> socket.socket:
    """A client that was greeted."""
    made = socket.socket(socket.AF_UNIX)
    made.settimeout(MOST)
    made.connect(address())
    if read_frame(made)[0] != HELLO:
        raise FrameError("no greeting")
    return made


def whole(source: random.Random) -> Sent:
    """A frame that is one, and what may answer it."""
    statement = source.choice([b"RUN rows_1 ();", b"INSERT a;", b"SHOW;", b"RUN exit_7 ();", b"RUN none ();"])
    limits = LIMITS.pack(source.choice([0, 0, 60_000]), source.randrange(9))
    return source.choice(
        [
            (STATEMENT, statement, {REPORT, ENDED}),
            (LIMITED, limits + statement, {REPORT, ENDED}),
            (BACKUP, bytes(source.choices(range(256), k=source.randrange(300))), {ENDED}),
            (STATUS, b"", {STATUS}),
        ]
    )


def broken(source: random.Random) -> bytes:
    """Bytes that are no frame, or no whole one."""
    noise = bytes(source.choices(range(256), k=source.randrange(1, 200)))
    wrong = [b"", b";", b"SHOW", b"SHOW;SHOW;", b"'", noise]
    text = source.choice([STATEMENT, LIMITED, b"?", b"\0"]) + source.choice(wrong)
    length = source.choice([len(text), len(text), len(text) + 5, 0, 70_000, 2**32 - 1])
    return source.choice([HEAD.pack(length) + text, noise])


def send(to: socket.socket, data: bytes, source: random.Random) -> None:
    """Sends bytes in pieces, as far as they are taken."""
    try:
        while data:
            cut = source.choice([len(data), source.randrange(1, len(data) + 1)])
            to.sendall(data[:cut])
            data = data[cut:]
    except OSError:
        pass


def answers(of: socket.socket, wanted: list[set[bytes]]) -> str:
    """What is strange of the answers to whole frames and to what is sent behind them."""
    try:
        for place, kinds in enumerate(wanted):
            kind, _ = read_frame(of)
            if kind not in kinds:
                return f"{kind!r} answers frame {place}"
        kind, _ = read_frame(of)
        return "" if kind in (BROKEN, REPORT, ENDED, STATUS) else f"{kind!r} answers what is no frame"
    except Gone as error:
        return "an answer ends in its middle" if error.begun else ""
    except ConnectionResetError:
        return ""
    except TimeoutError:
        return "a client waits without an end"


def trial(source: random.Random) -> str:
    """One client that sends whole frames and then what is none, and another one beside it."""
    frames = [whole(source) for _ in range(source.randrange(6))]
    data = b"".join(HEAD.pack(len(text) + 1) + kind + text for kind, text, _ in frames)
    with client() as tried, client() as other:
        send(tried, data + (broken(source) if source.random() < 0.7 else b""), source)
        if source.random() < 0.3:
            strange = ""
        else:
            tried.shutdown(socket.SHUT_WR)
            strange = answers(tried, [kinds for _, _, kinds in frames])
        text = STATEMENT + b"RUN rows_1 ();"
        other.sendall(HEAD.pack(len(text)) + text)
        # Where the engine was ended beside it, this one has begun it anew.
        return strange or ("" if read_frame(other)[0] == REPORT else "the other one has no report")
