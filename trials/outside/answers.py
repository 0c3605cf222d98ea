"""Whatever a server answers, a client ends in time, with the one report or with an exception of PEP 249."""

import random
import socket
import tempfile
import threading
import time
from pathlib import Path

from piql.errors import Error
from piql.frames import GREETING, HELLO, write_frame
from piql.socketlink import SocketLink
from piql.wholeness import number_of

STEP = 0.2
# A client that takes longer than this has no end.
MOST = 10.0
REPORT = b"3 ok bound 1 1 used 1 0\n"
ENDS = (b"{}", b'{"status": 5, "text": "full"}', b'{"status": [], "text": 1}', b"[" * 9999, b"\xff")
TEXTS = (REPORT, REPORT * 2, b"", *ENDS)


def answer_of(source: random.Random) -> bytes:
    """What is sent in answer to a frame: mostly a frame with something wrong."""
    text = source.choice([*TEXTS, bytes(source.choices(range(256), k=source.randrange(30)))])
    length = source.choice([len(text) + 1, len(text), len(text) + 9, 0, 2**32 - 1])
    frame = length.to_bytes(4) + source.choice([b"R", b"E", b"X", b"C", b"H", b"?"]) + text
    return source.choice([frame, frame[: source.randrange(len(frame))], frame + frame])


def serve(listener: socket.socket, source: random.Random) -> None:
    """Answers clients, each first by a greeting that is mostly one, until the listener is closed."""
    try:
        while True:
            client, _ = listener.accept()
            with client:
                client.settimeout(STEP * 2)
                if source.random() < 0.8:
                    write_frame(client, HELLO, GREETING)
                else:
                    client.sendall(answer_of(source))
                client.recv(1 << 16)
                client.sendall(answer_of(source))
                client.recv(1)
    except OSError:
        pass


def told(path: str, reads: bool) -> str:
    """What is strange of one statement."""
    link = None
    try:
        link = SocketLink(path, 0.0, STEP)
        report = link.exchange(b"SHOW;", reads)
        return "" if number_of(report.encode()) is not None else f"{report!r} is told"
    except Error:
        return ""
    except Exception as error:
        return f"{type(error).__name__} is raised: {error}"
    finally:
        if link is not None:
            link.close()


def trial(source: random.Random) -> str:
    """One client of one server."""
    begun = time.monotonic()
    with tempfile.TemporaryDirectory(prefix="piql-outside-") as folder, socket.socket(socket.AF_UNIX) as listener:
        path = str(Path(folder) / "socket")
        listener.bind(path)
        listener.listen()
        threading.Thread(target=serve, args=(listener, source), daemon=True).start()
        strange = told(path, source.random() < 0.5)
        listener.shutdown(socket.SHUT_RDWR)
    took = time.monotonic() - begun
    return strange or (f"it took {took:.1f} seconds" if took > MOST else "")
