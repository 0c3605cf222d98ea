#!/usr/bin/env python3
"""Fills the microblog with N users: site/seed.py N [FILE]

User i follows the next 5, has 3 posts, and each is liked by the next 2. What a user's pages show depends on his number
alone and not on N, but for the first and the last few.
"""

import argparse
import sys
import time
from collections.abc import Iterator
from pathlib import Path

HERE = Path(__file__).resolve().parent
sys.path.insert(0, str(HERE.parent / "drivers/python"))

import piql  # noqa: E402 - the package stands in drivers/python

FOLLOWS, POSTS, LIKES = 5, 3, 2
# More than any N, so that a later post of any user has a greater number.
ROUND = 1_000_000
Write = tuple[str, tuple[object, ...]]


def name(number: int) -> str:
    """The name of a user."""
    return f"u{number:05}"


def neighbours(number: int, count: int, users: int) -> list[str]:
    """The users behind one, as many as there are others."""
    return [name((number + step) % users) for step in range(1, min(count, users - 1) + 1)]


def posts_of(number: int) -> list[int]:
    """The stamps of a user's posts."""
    return [turn * ROUND + number for turn in range(1, POSTS + 1)]


def writes(users: int) -> Iterator[Write]:
    """All writes, parents first."""
    for i in range(users):
        about = None if i % 3 else f"Likes the number {i}."
        yield "INSERT INTO users VALUES (?, ?, ?)", (name(i), f"User {i}", about)
    for i in range(users):
        for target in neighbours(i, FOLLOWS, users):
            yield "INSERT INTO follows VALUES (?, ?)", (name(i), target)
        for turn, stamp in enumerate(posts_of(i), 1):
            line = f"{name(i)} says something, for the {turn}. time."
            yield "INSERT INTO posts VALUES (?, ?, ?)", (name(i), stamp, line)
    for i in range(users):
        for stamp in posts_of(i):
            for fan in neighbours(i, LIKES, users):
                yield "INSERT INTO likes VALUES (?, ?, ?)", (name(i), stamp, fan)


def count(users: int) -> int:
    """How many writes there are."""
    others = users - 1
    return users * (1 + min(FOLLOWS, others) + POSTS + POSTS * min(LIKES, others))


def seed(connection: piql.Connection, users: int, tell: bool = True) -> None:
    """Makes the schema and the rows. Rows that are there already are left as they are."""
    piql.migrate(connection, HERE / "schema.piql", out=sys.stdout if tell else None)
    told, total = time.monotonic(), count(users)
    for done, (statement, values) in enumerate(writes(users), 1):
        try:
            connection.execute(statement, values)
        except piql.IntegrityError as error:
            if error.number != "E503":
                raise
        if tell and time.monotonic() - told > 1:
            told = time.monotonic()
            print(f"{done:,} of {total:,} rows", flush=True)
    if tell:
        print(f"{total:,} rows")


def main() -> None:
    """The command."""
    parser = argparse.ArgumentParser(description="Fills the microblog with N users.")
    parser.add_argument("users", type=int, metavar="N")
    parser.add_argument("file", nargs="?", default="microblog.db", help="a file, or unix:SOCKET; microblog.db")
    given = parser.parse_args()
    if not 1 <= given.users <= 100_000:
        parser.error("N is from 1 to 100000")
    with piql.connect(given.file) as connection:
        seed(connection, given.users)


if __name__ == "__main__":
    try:
        main()
    except piql.Error as error:
        sys.exit(f"seed: {error}")
