"""A child that was forked keeps no connection of its parent's to a cluster open, and ends none."""

import contextlib
import os
import signal
import socket
import time
import unittest
from collections.abc import Iterator

from clusters import databases, needs_postgres, postgres_url
from piql.hosts.postgres_client import PostgresClient
from piql.hosts.timed_http import HttpSocket

SESSIONS = "SELECT count(*) FROM pg_stat_activity WHERE application_name = 'forked'"


@contextlib.contextmanager
def child() -> Iterator[None]:
    """A child that was forked, and does nothing of its own."""
    number = os.fork()
    if number == 0:
        signal.pause()
        os._exit(1)
    try:
        yield
    finally:
        os.kill(number, signal.SIGKILL)
        os.waitpid(number, 0)


class ForkTest(unittest.TestCase):
    def test_a_connection_to_a_member_ends_with_its_owner(self) -> None:
        with socket.create_server(("127.0.0.1", 0)) as listener:
            made = HttpSocket(listener.getsockname(), time.monotonic() + 5)
            other, _ = listener.accept()
            with other, child():
                made.close()
                other.settimeout(5)
                self.assertEqual(other.recv(1), b"")

    @needs_postgres
    def test_a_connection_to_a_server_ends_with_its_owner_and_not_with_the_child(self) -> None:
        client = PostgresClient(postgres_url("?application_name=forked"), 5.0)
        client.run("SELECT 1")
        with child():
            pass
        self.assertEqual(client.run("SELECT 2"), [(2,)])
        with child(), open(os.devnull) as nothing:
            # As if the parent were killed: it tells the server nothing.
            assert client.connection is not None
            os.dup2(nothing.fileno(), client.connection.fileno())
            until = time.monotonic() + 5
            while databases().ask(0, SESSIONS) != "0" and time.monotonic() < until:
                time.sleep(0.05)
            self.assertEqual(databases().ask(0, SESSIONS), "0")
        client.close()


if __name__ == "__main__":
    unittest.main()
