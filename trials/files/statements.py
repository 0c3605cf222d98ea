"""Statements in a row, and the pairs that stand in a file before the first and behind each of them."""

import pathlib
import random
from dataclasses import dataclass

from common import Pairs, answers, knows_batches, remove, sound_pairs

DEFINITIONS = [
    b"CREATE TABLE m (id INT, v INT, w INT, note TEXT(200), PRIMARY KEY (id), CARDINALITY LIMIT 100 (v));",
    b"CREATE COUNTER by_v OF m (v);",
]
# How often a statement is a batch, and the most writes of one.
BATCHES, BATCH = 0.3, 6
# More rows than an index is filled with by one range.
ROWS = 300
PREPARE = b"PREPARE by_w AS SELECT m.w, m.id FROM m ORDER BY m.w LIMIT 10;"


@dataclass(frozen=True)
class Case:
    """A file that the program has made, statements over it, and the pairs before the first and behind each."""

    name: str
    file: pathlib.Path
    statements: list[bytes]
    states: list[Pairs]

    def script(self) -> bytes:
        return b"\n".join(self.statements) + b"\n"


def insert(key: int, chance: random.Random) -> bytes:
    """A row whose note fills some of a page, so that the pages of the tables are split."""
    note = "n" * chance.randrange(200)
    return f"INSERT INTO m VALUES ({key}, {chance.randrange(9)}, {chance.randrange(99)}, '{note}');".encode()


def write(keys: set[int], chance: random.Random) -> bytes:
    """A write that isn't refused: a row more, another value of one, or one less."""
    key = chance.randrange(60)
    if key not in keys:
        keys.add(key)
        return insert(key, chance)
    if chance.random() < 0.6:
        return f"UPDATE m SET v = {chance.randrange(9)}, w = {chance.randrange(99)} WHERE id = {key};".encode()
    keys.remove(key)
    return f"DELETE FROM m WHERE id = {key};".encode()


def batch(keys: set[int], chance: random.Random) -> bytes:
    """Several of these as one. A row may be written more than once."""
    parts = (write(keys, chance).removesuffix(b";") for _ in range(chance.randint(1, BATCH)))
    return b"BATCH " + b", ".join(parts) + b";"


def writes(number: int, batches: float, chance: random.Random) -> list[bytes]:
    """The definitions, and so many writes, or so often batches: each changes rows, entries and numbers of groups."""
    keys: set[int] = set()
    made = (batch if chance.random() < batches else write for _ in range(number))
    return [*DEFINITIONS, *(one(keys, chance) for one in made)]


def states(program: pathlib.Path, file: pathlib.Path, statements: list[bytes]) -> list[Pairs]:
    """The pairs of a copy of the file, and behind each statement, with a run for each of them."""
    copy = file.with_name("states.db")
    copy.write_bytes(file.read_bytes())
    found = []
    for statement in [b"", *statements]:
        answers(program, copy, statement)
        found.append(sound_pairs(copy))
    remove(copy)
    return found


def case(name: str, program: pathlib.Path, folder: pathlib.Path, before: list[bytes], timed: list[bytes]) -> Case:
    """The case of some statements over a file that others have made."""
    file = folder / f"{name}.db"
    answers(program, file, b"\n".join(before))
    return Case(name, file, timed, states(program, file, timed))


def cases(program: pathlib.Path, folder: pathlib.Path, number: int, chance: random.Random) -> list[Case]:
    """Writes over a new file, and an index that is filled over rows that are there."""
    rows = [insert(key, chance) for key in range(ROWS)]
    batches = BATCHES if knows_batches(program, folder) else 0.0
    return [
        case("writes", program, folder, [], writes(number, batches, chance)),
        case("build", program, folder, [DEFINITIONS[0].replace(b"100", b"9999"), *rows], [PREPARE]),
    ]
