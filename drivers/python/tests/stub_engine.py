"""Stands for an engine in the tests of hosts: it speaks the frames, and each of its statements is a few words.

    PUT KEY VALUE;   GET KEY;   COUNT;   calls of the store, with the answer as a row
    STUCK KEY;   asks for a value, and never reads the answer
    EXIT STATUS;   HANG;   GARBAGE;   ECHO ANYTHING;
"""

import struct
import sys
import time

READ, REPORT, GET, RANGE, COUNT, WRITE = 1, 2, 16, 17, 18, 19


def send(op: int, body: bytes) -> None:
    """Sends a request."""
    sys.stdout.buffer.write(struct.pack(">IBBB", len(body) + 3, 1, op, 0) + body)
    sys.stdout.buffer.flush()


def ask(op: int, body: bytes) -> bytes:
    """What the host answers to a request. A call that failed ends the program as the engine's ends."""
    send(op, body)
    head = sys.stdin.buffer.read(4)
    if len(head) < 4:
        sys.exit(3)
    told = sys.stdin.buffer.read(struct.unpack(">I", head)[0])
    if told[1] != 1:
        sys.exit(5)
    return told[2:]


def sized(data: bytes) -> bytes:
    return struct.pack(">I", len(data)) + data


def report(text: str) -> None:
    ask(REPORT, text.encode())


def done(words: list[str]) -> str:
    """Does a statement; what it answers."""
    match words:
        case ["PUT", key, value]:
            return str(ask(WRITE, b"\0\1" + sized(key.encode()) + sized(b"") + value.encode()))
        case ["GET", key]:
            return str(ask(GET, key.encode()))
        case ["COUNT"]:
            return str(struct.unpack(">I", ask(COUNT, struct.pack(">I", 100) + sized(b"") + b"\xff")))
        case ["EXIT", status]:
            sys.exit(int(status))
        case ["HANG"]:
            time.sleep(60)
        case ["STUCK", key]:
            send(GET, key.encode())
            time.sleep(60)
        case ["GARBAGE"]:
            sys.stdout.buffer.write(b"\0\0\0\1x")
            sys.stdout.buffer.flush()
            time.sleep(60)
    return " ".join(words)


def main() -> None:
    found = struct.unpack_from(">I", ask(RANGE, struct.pack(">I", 257) + sized(b"\1") + b"\2"))[0]
    report(f"open defs {found} bound 2 257 used 2 {found}\n")
    text, number = b"", 0
    # It has room for few bytes, so that statements come in pieces.
    while piece := ask(READ, struct.pack(">I", 8)):
        text += piece
        while b";" in text:
            statement, _, text = text.partition(b";")
            number += 1
            row = done(statement.decode().split())
            report(f"row '{row.replace(chr(39), chr(39) * 2)}'\n{number} ok rows 1 bound 0 0 used 0 0\n")


main()
