"""The engine is killed at a random call, made or not made, and a new one opens the store, over and over."""

import contextlib
import random
import re
import subprocess
from collections import Counter

from common import Trial
from piql.hosts import Backend, Host, MemoryStore, Op, serve
from piql.hosts.urls import open_store
from piql.hosts.wire import FAILURE, ROUNDS, SINGLE, Request, Write

TIMES, CLUSTER_TIMES = 1000, 60
IDS, TOWNS, STATEMENTS, MOST_CALLS = 12, 3, 6, 40
# How often a statement is a batch, and the most writes of one.
BATCHES, BATCH = 0.4, 5
SCHEMA = b"""CREATE TABLE u (id INT, town TEXT(9), note TEXT(9), PRIMARY KEY (id), CARDINALITY LIMIT 100 (town));
PREPARE a AS SELECT * FROM u WHERE u.id >= 0 ORDER BY u.id LIMIT 100;
PREPARE t AS SELECT * FROM u WHERE u.town = [1] ORDER BY u.id LIMIT 100;
"""
LOOK = b"RUN a ();" + b"".join(b"RUN t ('t%d');" % town for town in range(TOWNS))
ROW = re.compile(rb"^row (\d+), '(t\d)', '(n\d+)'$", re.MULTILINE)
OPENING = re.compile(rb"open defs \d+ bound \d+ \d+ used (\d+) ")
# The operations of an opening that finds nothing to settle.
QUIET = 2
Rows = dict[int, tuple[str, str]]


class Killing(Host):
    """A host that kills its engine at one of the calls, before or after it is made.

    One that keeps nothing makes each write of a statement as it comes, as a host may.
    """

    def __init__(self, store: Backend, at: int | None, chance: random.Random, keeps: bool = True) -> None:
        super().__init__([store])
        self.left, self.chance, self.keeps = at, chance, keeps
        self.process: subprocess.Popen[bytes] | None = None
        self.killed_at: Op | None = None

    def written(self, backend: Backend, write: Write) -> bool:
        return super().written(backend, write) if self.keeps else backend.write(*write)

    def answer(self, request: Request) -> bytes:
        if self.left is None or request.op not in (*SINGLE, *ROUNDS):
            return super().answer(request)
        self.left -= 1
        if self.left >= 0:
            return super().answer(request)
        told = super().answer(request) if self.chance.random() < 0.5 else FAILURE
        assert self.process is not None
        self.process.kill()
        self.process.wait()
        self.left, self.killed_at = None, request.op
        return told


def run(engine: str, host: Killing, script: bytes) -> tuple[int, bytes]:
    """Runs a script up to its end or the engine's; the status, and what was written."""
    told, left = bytearray(), [script]
    with subprocess.Popen([engine, "run"], stdin=subprocess.PIPE, stdout=subprocess.PIPE) as process:
        host.process = process
        assert process.stdin is not None and process.stdout is not None
        try:
            serve(host, process.stdout, process.stdin, lambda _: left.pop() if left else b"", told.extend)
        except BrokenPipeError:
            pass
        with contextlib.suppress(BrokenPipeError):
            process.stdin.close()
        return process.wait(), bytes(told)


def written(chance: random.Random, rows: Rows) -> str:
    """A write that is accepted, and is made of the rows."""
    number, town, note = chance.randrange(IDS), f"t{chance.randrange(TOWNS)}", f"n{chance.randrange(99)}"
    is_there = number in rows
    if is_there and chance.random() < 0.4:
        del rows[number]
        return f"DELETE FROM u WHERE id = {number}"
    rows[number] = town, note
    if is_there:
        return f"UPDATE u SET town = '{town}', note = '{note}' WHERE id = {number}"
    return f"INSERT INTO u VALUES ({number}, '{town}', '{note}')"


def statements(chance: random.Random, rows: Rows) -> tuple[bytes, list[Rows]]:
    """Statements that are all accepted, some of them batches; the rows before the first, behind the first and so on."""
    made, states = [], [dict(rows)]
    for _ in range(STATEMENTS):
        after = dict(states[-1])
        if chance.random() < BATCHES:
            writes = ", ".join(written(chance, after) for _ in range(chance.randint(1, BATCH)))
            made.append(f"BATCH {writes};")
        else:
            made.append(f"{written(chance, after)};")
        states.append(after)
    return "".join(made).encode(), states


def read_rows(text: bytes) -> Rows:
    """The rows of answers."""
    return {int(number): (town.decode(), note.decode()) for number, town, note in ROW.findall(text)}


def kill_over(trial: Trial, kind: str, store: Backend, times: int, keeps: bool = True) -> None:
    """Kills engines over one store."""
    chance, counts, rows = random.Random(3), Counter[str](), Rows()
    store.begin()
    trial.expect(run(trial.engine, Killing(store, None, chance), SCHEMA)[0] == 0, f"{kind}: no schema")
    for turn in range(times):
        script, states = statements(chance, rows)
        host = Killing(store, chance.randrange(2, MOST_CALLS), chance, keeps)
        _, told = run(trial.engine, host, script)
        accepted = len(re.findall(rb"^\d+ ok ", told, re.MULTILINE))
        status, found = run(trial.engine, Killing(store, None, chance), LOOK)
        by_key, _, by_town = found.partition(b"1 ok rows")
        rows = read_rows(by_key)
        possible = states[accepted : accepted + 2]
        trial.expect(rows in possible and status == 0, f"{kind} {turn}: {accepted} told, then {found!r:.300}")
        trial.expect(read_rows(by_town) == rows, f"{kind} {turn}: the index has other rows")
        what = "killed at a write" if host.killed_at is Op.WRITE else "killed at a read"
        counts[what if host.killed_at else "whole"] += 1
        counts["one statement further"] += rows != possible[0]
        opening = OPENING.match(found)
        counts["settled by the opening"] += opening is None or int(opening[1]) > QUIET
    trial.tell(f"{kind}: {times} runs: {', '.join(f'{number} {what}' for what, number in sorted(counts.items()))}")


def deaths(trial: Trial) -> None:
    """The engine killed at a random call: what was told is there, or one statement more, whole."""
    kill_over(trial, "memory", MemoryStore(), trial.times or TIMES)
    kill_over(trial, "memory, each write by itself", MemoryStore(), trial.times or TIMES, keeps=False)
    for kind, url in trial.urls():
        store = open_store(url)
        kill_over(trial, kind, store, trial.times or CLUSTER_TIMES)
        store.close()
