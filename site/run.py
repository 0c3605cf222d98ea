#!/usr/bin/env python3
"""Runs the microblog: site/run.py [--file FILE] [--port PORT] [--workers N]

One worker has the file by itself. Several have it by piql-serve, which is begun here; each of them is a process.
"""

import argparse
import contextlib
import os
import signal
import subprocess
import sys
import tempfile
import threading
from collections.abc import Iterator
from pathlib import Path
from wsgiref.simple_server import WSGIRequestHandler, WSGIServer

HERE = Path(__file__).resolve().parent
sys.path.insert(0, str(HERE.parent / "drivers/python"))

import piql  # noqa: E402 - the package stands in drivers/python
from microblog import application  # noqa: E402


class QuietHandler(WSGIRequestHandler):
    """Writes no line for each request."""

    def log_message(self, format: str, *args: object) -> None:  # noqa: A002 - the name is the base's
        """Nothing."""


def listener(port: int) -> WSGIServer:
    """A server that listens. Workers share its socket, so none waits in accept for a client that another has taken."""
    made = WSGIServer(("127.0.0.1", port), QuietHandler)
    made.socket.setblocking(False)
    return made


def work(server: WSGIServer, target: str) -> None:
    """A worker: answers requests over a connection of its own until it is ended, the one at hand to its end."""
    ended = threading.Event()
    for number in (signal.SIGTERM, signal.SIGINT):
        signal.signal(number, lambda _number, _frame: ended.set())
    server.timeout = 0.2
    with piql.connect(target, prepare=False) as connection:
        server.set_app(application(connection))
        while not ended.is_set():
            server.handle_request()


@contextlib.contextmanager
def served(file: str) -> Iterator[str]:
    """A piql-serve over the file; where to connect."""
    with tempfile.TemporaryDirectory(prefix="microblog-") as folder:
        at = os.path.join(folder, "socket")
        words = [str(HERE.parent / "bin/piql-serve"), file, at]
        process = subprocess.Popen(words, stdout=subprocess.PIPE, process_group=0)
        assert process.stdout is not None
        try:
            if not process.stdout.readline():
                sys.exit(process.wait())
            yield f"unix:{at}"
        finally:
            process.terminate()
            process.wait()


def fork_worker(server: WSGIServer, target: str) -> int:
    """A worker as a process; its number."""
    child = os.fork()
    if child == 0:
        try:
            work(server, target)
        finally:
            os._exit(0)
    return child


def run_workers(server: WSGIServer, file: str, count: int) -> None:
    """Several workers, until this process is ended."""
    signal.signal(signal.SIGTERM, lambda _number, _frame: sys.exit(0))
    with served(file) as target:
        children = [fork_worker(server, target) for _ in range(count)]
        try:
            signal.pause()
        except KeyboardInterrupt:
            pass
        finally:
            for child in children:
                os.kill(child, signal.SIGTERM)
            for child in children:
                os.waitpid(child, 0)


def main() -> None:
    """The command."""
    parser = argparse.ArgumentParser(description="Runs the microblog.")
    parser.add_argument("--file", default="microblog.db")
    parser.add_argument("--port", type=int, default=8000)
    parser.add_argument("--workers", type=int, default=1)
    given = parser.parse_args()
    with piql.connect(given.file) as connection:
        piql.migrate(connection, HERE / "schema.piql", out=sys.stdout)
    server = listener(given.port)
    print(f"http://127.0.0.1:{server.server_port}/ with {given.workers} worker(s) over {given.file}", flush=True)
    if given.workers == 1:
        work(server, given.file)
    else:
        run_workers(server, given.file, given.workers)


if __name__ == "__main__":
    try:
        main()
    except piql.Error as error:
        sys.exit(f"run: {error}")
