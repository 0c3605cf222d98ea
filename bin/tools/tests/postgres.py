"""Statements as somebody writes them who knows Postgres, over the tables and the query that stand first.

Each line of postgres.tsv is a statement, the code of its refusal, the token at which a caret has to stand, and words of
its way out. A character that isn't printed is written as in a Python text.
"""

import pathlib
from typing import NamedTuple

TABLES = """\
CREATE TABLE users (name TEXT(20), town TEXT(20), karma INT, PRIMARY KEY (name));
CREATE TABLE posts (id INT, owner TEXT(20), line TEXT(200), PRIMARY KEY (id), FOREIGN KEY (owner) REFERENCES users);
PREPARE q AS SELECT u.town FROM users AS u WHERE u.name = [1];
"""


class Habit(NamedTuple):
    """A statement of SQL, and how it is refused here."""

    statement: str
    code: str
    token: str
    way_out: str


def read_habits() -> list[Habit]:
    lines = pathlib.Path(__file__).with_name("postgres.tsv").read_text(encoding="ascii").splitlines()
    return [Habit(*line.encode().decode("unicode_escape").split("\t")) for line in lines]


STATEMENTS = read_habits()
