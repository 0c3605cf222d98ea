"""A store's file as scripts that make it again: all definitions in their order, and then the rows of each table.

A table refers to earlier ones alone, so each row's parents come before it. The definitions keep their numbers, and so
do the indexes, which the rows then fill, and the counters, which then count them: the new file has the same pairs, and
cursors are good for both.
"""

import argparse
import sqlite3
import sys
from collections.abc import Iterable, Iterator
from pathlib import Path

from piql.errors import Error, InterfaceError, OperationalError
from piql.private import new_file
from piql.schema import Table
from piql.scripts import SCRIPT_BYTES
from piql.stored import DEFINITIONS, INTENT, READY, check_formats, opened, pairs, read_stored_schema, stored_rows
from piql.targets import check_files
from piql.values import quoted
from tools.launch import tell
from tools.statuses import USAGE

NAME = "dump"
REFUSED = 1


def check_whole(file: sqlite3.Connection) -> None:
    """What the next opening would make whole first, and what a later version wrote, is told."""
    if next(pairs(file, INTENT), None):
        raise OperationalError("a write of it was cut off; a run over it, also of nothing, makes the write whole")
    check_formats(file)
    if any(value[1] != READY for _, value in pairs(file, DEFINITIONS)):
        raise OperationalError("an index of it isn't filled to its end; a run over it, also of nothing, fills it")


def insert(table: Table, row: Iterable[object]) -> str:
    return f"INSERT INTO {table.name} VALUES ({', '.join(map(quoted, row))});"


def statements(file: sqlite3.Connection) -> Iterator[str]:
    """The statements that make a store with these pairs."""
    schema = read_stored_schema(file)
    yield from (definition.text for definition in schema.definitions)
    for number, table in enumerate(schema.tables().values(), 1):
        yield from (insert(table, row) for row in stored_rows(file, number, table.columns))


def scripts(lines: Iterable[str], most: int) -> Iterator[bytes]:
    """The statements as scripts of at most so many bytes."""
    script = bytearray()
    for line in lines:
        data = line.encode() + b"\n"
        if script and len(script) + len(data) > most:
            yield bytes(script)
            script.clear()
        script += data
    yield bytes(script)


def write_out(parts: Iterator[bytes]) -> int:
    """Writes the one script that a run can take. Where there are more, nothing is written."""
    first = next(parts)
    if next(parts, None) is not None:
        tell(NAME, f"a run takes {SCRIPT_BYTES:,} bytes, and there are more: name a folder for several scripts")
        return REFUSED
    sys.stdout.buffer.write(first)
    return 0


def write_folder(parts: Iterable[bytes], folder: Path) -> int:
    """Writes the scripts into a new folder, under names in their order. They have rows: only their owner reads them."""
    folder.mkdir(mode=0o700)
    for number, part in enumerate(parts, 1):
        with open(new_file(folder / f"{number:06}.piql"), "wb") as script:
            script.write(part)
    return 0


def write(path: str, folder: str | None) -> int:
    """Writes the scripts of a file."""
    check_files(path)
    with opened(path) as file:
        check_whole(file)
        parts = scripts(statements(file), SCRIPT_BYTES)
        return write_folder(parts, Path(folder)) if folder else write_out(parts)


def read_given(words: list[str]) -> argparse.Namespace:
    parser = argparse.ArgumentParser(prog="bin/dump", description="A store's file as scripts that make it again.")
    parser.add_argument("file", metavar="FILE", help="the file, over which no run is on")
    parser.add_argument("folder", metavar="FOLDER", nargs="?", help="a new folder, for as many scripts as it takes")
    return parser.parse_args(words)


def main(words: list[str]) -> int:
    given = read_given(words)
    try:
        return write(given.file, given.folder)
    except Error as error:
        said, is_told = str(error), isinstance(error, InterfaceError)
        tell(NAME, said if is_told or said.startswith(given.file) else f"{given.file}: {said}")
        return REFUSED
    except OSError as error:
        tell(NAME, str(error))
        return USAGE
