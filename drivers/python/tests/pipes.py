"""Cases over a stand-in for the engine, whose pipe's bytes are kept."""

import os
import socket
import sys
import threading
import unittest
from collections.abc import Callable
from pathlib import Path
from unittest import mock

from helpers import new_folder, piql

HERE = Path(__file__).parent
RECORDING = HERE / "recording_engine.py"


def program_of(case: unittest.TestCase, source: str) -> Path:
    """A program of one of the tests' files, by this interpreter without what it needn't look for."""
    program = new_folder(case) / "engine"
    program.write_text(f"#!{sys.executable} -SE\n{(HERE / source).read_text()}")
    program.chmod(0o755)
    return program


def listener_of(case: unittest.TestCase, serve: Callable[[socket.socket], object]) -> str:
    """The path of a new socket, at which a thread serves clients by a function of the listener."""
    path = str(new_folder(case) / "socket")
    listener = socket.socket(socket.AF_UNIX)
    case.addCleanup(listener.close)
    listener.bind(path)
    listener.listen()
    threading.Thread(target=serve, args=(listener,), daemon=True).start()
    return path


class PipeCase(unittest.TestCase):
    """Each test has a connection to a stand-in; `lie` is what it answers to the second statement, behind SHOW."""

    lie: str | None = None
    late: str | None = None

    def setUp(self) -> None:
        self.folder = new_folder(self)
        self.record = self.folder / "record"
        self.told = 0
        self.set("PIQL_RECORD", str(self.record))
        for name, text in (("PIQL_LIE", self.lie), ("PIQL_LATE", self.late)):
            if text is not None:
                self.set(name, text)

    def set(self, name: str, text: str) -> None:
        """Sets a word of the environment for this test."""
        patch = mock.patch.dict(os.environ, {name: text})
        patch.start()
        self.addCleanup(patch.stop)

    def open(self, **more: object) -> piql.Connection:
        """A connection whose first statement, SHOW, was sent."""
        connection = piql.connect(self.folder / "store.db", program=RECORDING, **more)  # type: ignore[arg-type]
        self.addCleanup(connection.close)
        self.sent()
        return connection

    def sent(self) -> bytes:
        """What reached the pipe since the last call."""
        data = self.record.read_bytes() if self.record.exists() else b""
        new, self.told = data[self.told :], len(data)
        return new


def written(value: object) -> bytes:
    """What a statement has for a plain value, by the rules of docs/LANGUAGE.md."""
    if type(value) is str:
        return b"'" + b"".join(b"''" if letter == "'" else letter.encode() for letter in value) + b"'"
    if value is None:
        return b"NULL"
    if type(value) is bool:
        return b"TRUE" if value else b"FALSE"
    return b"%d" % value  # type: ignore[str-bytes-safe, str-format]


__all__ = ["RECORDING", "PipeCase", "listener_of", "program_of", "written"]
