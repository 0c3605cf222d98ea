"""The program that plays orders of steps, and what it answers."""

from __future__ import annotations

import pathlib
import subprocess
from collections.abc import Iterator
from dataclasses import dataclass
from typing import BinaryIO

from pairs import Breach, Content
from tables import Table, Write


@dataclass(frozen=True)
class Call:
    """A call of the store: `get`, `count` up to a key, or `write`.

    The answer of a get is a value or None, of a count a number, of a write whether it was made.
    """

    kind: str
    key: bytes
    high: bytes = b""
    cap: int = 0
    # What has to be there for a write: `any`, `none`, or `=` and a value.
    guard: bytes = b"any"
    new: bytes | None = None
    answer: bytes | int | bool | None = None
    failed: bool = False


@dataclass(frozen=True)
class Step:
    """A step of the client at a place: its calls and what it said."""

    place: int
    calls: tuple[Call, ...]
    said: str


@dataclass(frozen=True)
class Played:
    """What an order led to: the first content, the steps, each with the content behind it, and what one call of
    `run_clients` told and left, if it was asked."""

    first: Content
    steps: tuple[tuple[Step, Content], ...]
    ran: tuple[tuple[str, ...], Content] | None


@dataclass(frozen=True)
class Case:
    """Tables, the statements that make their rows, and the writes of each client."""

    name: str
    tables: tuple[Table, ...]
    rows: tuple[str, ...]
    hands: tuple[tuple[Write, ...], ...]


class Parts:
    """Bytes that are read as letters and parts."""

    def __init__(self, held: bytes) -> None:
        self.held = held
        self.at = 0

    def __bool__(self) -> bool:
        return self.at < len(self.held)

    def letter(self) -> str:
        self.at += 1
        return chr(self.held[self.at - 1])

    def part(self) -> bytes:
        start = self.at + 2
        self.at = start + int.from_bytes(self.held[start - 2 : start])
        return self.held[start : self.at]

    def value(self) -> bytes | None:
        return self.part() if self.letter() == "v" else None


def read_call(parts: Parts) -> Call:
    letter = parts.letter()
    key = parts.part()
    if letter == "g":
        answer = parts.letter()
        return Call("get", key, answer=parts.part() if answer == "v" else None, failed=answer == "f")
    if letter == "c":
        high, cap, answer = parts.part(), int.from_bytes(parts.part()), parts.letter()
        number = int.from_bytes(parts.part()) if answer == "v" else None
        return Call("count", key, high=high, cap=cap, answer=number, failed=answer == "f")
    if letter != "w":
        raise Breach(f"a call {letter}, which no step makes")
    guard = parts.letter()
    wanted = b"=" + parts.part() if guard == "v" else b"none" if guard == "n" else b"any"
    new, made = parts.value(), parts.letter()
    return Call("write", key, guard=wanted, new=new, answer=made == "m", failed=made == "f")


class Player:
    """A program that runs. Contents and calls are read once where their bytes are the same."""

    def __init__(self, program: pathlib.Path) -> None:
        self.process = subprocess.Popen([program, "orders"], stdin=subprocess.PIPE, stdout=subprocess.PIPE)
        assert self.process.stdin and self.process.stdout
        self.lines: BinaryIO = self.process.stdin
        self.answers: BinaryIO = self.process.stdout
        self.tables: tuple[Table, ...] = ()
        self.rows: tuple[str, ...] | None = None
        self.contents: dict[bytes, Content] = {}
        self.calls: dict[bytes, tuple[Call, ...]] = {}
        self.orders = 0
        self.steps = 0

    def close(self) -> None:
        self.lines.close()
        if status := self.process.wait():
            raise SystemExit(f"clients: the program ended with {status}")

    def begin(self, case: Case) -> None:
        """Gives the tables and their rows, where they are others than before, and the writes."""
        lines = ["clear"]
        if (case.tables, case.rows) != (self.tables, self.rows):
            self.tables, self.rows, self.contents = case.tables, case.rows, {}
            lines = ["new", *(f"run {table.text(case.tables)}" for table in case.tables)]
            lines += [f"run {text}" for text in case.rows]
        for number, hand in enumerate(case.hands, 1):
            lines += [f"write {number} {write.text()}" for write in hand]
        self.lines.write("".join(f"{line}\n" for line in lines).encode())

    def play(self, order: str, runs: bool, fail: str = "") -> Played:
        """Plays an order, which is one digit for each step."""
        self.lines.write(f"order {order} {'+' if runs else '-'} {fail}\n".encode())
        self.lines.flush()
        self.orders += 1
        if self.letter() != "b":
            raise Breach("an answer without a beginning")
        first = self.content(self.part())
        steps = tuple(self.read_steps(first))
        self.steps += len(steps)
        if self.last != "r":
            return Played(first, steps, None)
        told = tuple(self.part().decode().splitlines())
        ran = told, self.content(self.part())
        if self.letter() != "e":
            raise Breach("an answer without an end")
        return Played(first, steps, ran)

    def read_steps(self, content: Content) -> Iterator[tuple[Step, Content]]:
        while (letter := self.letter()) in "ms":
            place = ord(self.letter())
            calls, said = self.read_calls(self.part()), self.part().decode()
            if letter == "m":
                content = self.content(self.part())
            yield Step(place, calls, said), content
        self.last = letter

    def letter(self) -> str:
        if not (found := self.answers.read(1)):
            raise SystemExit(f"clients: the program ended with {self.process.wait()} in the middle of an answer")
        return found.decode()

    def part(self) -> bytes:
        return self.answers.read(int.from_bytes(self.answers.read(2)))

    def content(self, held: bytes) -> Content:
        if held not in self.contents:
            parts = Parts(held)
            pairs: dict[bytes, bytes] = {}
            while parts:
                key = parts.part()
                pairs[key] = parts.part()
            self.contents[held] = Content(pairs, self.tables)
        return self.contents[held]

    def read_calls(self, held: bytes) -> tuple[Call, ...]:
        if held not in self.calls:
            parts = Parts(held)
            calls = []
            while parts:
                calls.append(read_call(parts))
            self.calls[held] = tuple(calls)
        return self.calls[held]
