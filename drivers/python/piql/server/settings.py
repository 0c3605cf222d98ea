"""The words of piql-serve."""

import argparse
import os
import sys
from collections.abc import Sequence
from typing import NamedTuple, NoReturn

from ..hosts.passwords import without_secrets
from ..hosts.urls import is_url
from .log import LEVELS
from .rights import Place, read_place

CLIENTS = 256
MOST_CLIENTS = 10_000
MOST_SOCKETS = 16
SOCKETS = "another one, for all, write, run or read, with the mode 600 or the given one; several times"
IDLE = 600.0
SLOW = 1.0
INDEX_ROWS, MOST_ROWS = 100_000, 1_000_000
LEVEL = "info"


class Settings(NamedTuple):
    """What the words say. Times are in seconds."""

    store: str
    places: tuple[Place, ...]
    program: str | None
    standby: bool
    clients: int
    idle: float
    log: str
    slow: float
    statement_timeout: float | None
    statement_kill: float | None
    index_rows: int


def number(word: str, least: int, most: int) -> int:
    """A number of a range."""
    found = int(word) if word.isascii() and word.isdecimal() and len(word) < 10 else -1
    if not least <= found <= most:
        raise argparse.ArgumentTypeError(f"{least:,} to {most:,} are wanted, and not {word}")
    return found


def clients(word: str) -> int:
    """A number of clients."""
    return number(word, 1, MOST_CLIENTS)


def rows(word: str) -> int:
    """A number of rows; the engine makes no index over more than the most."""
    return number(word, 0, MOST_ROWS)


def seconds(word: str) -> float:
    """A time, above nothing."""
    try:
        time = float(word)
    except ValueError:
        time = 0.0
    if not 0 < time < float("inf"):
        raise argparse.ArgumentTypeError(f"a number of seconds is wanted, and not {word}")
    return time


class Parser(argparse.ArgumentParser):
    """One that tells no password of the words that it refuses."""

    def parse_args(self, words: Sequence[str] | None = None) -> argparse.Namespace:  # type: ignore[override]
        """The words, which are kept for `error`."""
        self.words = sys.argv[1:] if words is None else list(words)
        return super().parse_args(self.words)

    def error(self, message: str) -> NoReturn:
        """Ends the program."""
        for word in filter(is_url, self.words):
            message = without_secrets(message, word)
        super().error(message)


def place(word: str) -> Place:
    """A socket with what its clients may."""
    try:
        return read_place(word)
    except ValueError as error:
        raise argparse.ArgumentTypeError(str(error)) from error


def read_words(words: list[str] | None) -> Settings:
    """The words of the command. Words of no form end the program with status 2."""
    parser = Parser(prog="piql-serve", description="One store for many connections.")
    parser.add_argument("store", help="the SQLite file of the store, or etcd://.. or postgresql://..")
    parser.add_argument("at", nargs="?", metavar="socket", help="where clients connect, as unix:SOCKET, and may all")
    parser.add_argument("--socket", type=place, action="append", default=[], metavar="PATH:RIGHT[:MODE]", help=SOCKETS)
    parser.add_argument("--program", help="the program piql_file, or piql_host for a cluster")
    parser.add_argument("--standby", action="store_true", help="wait until no other server has the cluster's store")
    parser.add_argument("--clients", type=clients, default=CLIENTS, help="the most clients at a time (%(default)s)")
    parser.add_argument("--idle", type=seconds, default=IDLE, metavar="SECONDS", help="most silence (%(default)g)")
    parser.add_argument("--log", choices=LEVELS, default=LEVEL, help="the least that stands in the log (%(default)s)")
    parser.add_argument("--slow", type=seconds, default=SLOW, metavar="SECONDS", help="what is slow (%(default)g)")
    parser.add_argument("--statement-timeout", type=seconds, metavar="SECONDS", help="how long a client waits")
    parser.add_argument("--statement-kill", type=seconds, metavar="SECONDS", help="how long an engine may stand still")
    parser.add_argument("--index-rows", type=rows, default=INDEX_ROWS, metavar="N", help="of an index (%(default)s)")
    given = parser.parse_args(words)
    if given.standby and not is_url(given.store):
        parser.error("only the store of a cluster has a standby")
    places = ([Place(given.at)] if given.at is not None else []) + given.socket
    if not 1 <= len({os.path.realpath(it.path) for it in places}) == len(places) <= MOST_SOCKETS:
        parser.error(f"1 to {MOST_SOCKETS} sockets are wanted, each at a path of its own")
    words_left = {name: value for name, value in vars(given).items() if name not in ("at", "socket")}
    return Settings(places=tuple(places), **words_left)
