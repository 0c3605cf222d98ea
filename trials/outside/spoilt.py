"""Files that a disk spoilt: a look at a whole store finds what changed a pair, and each exception is one of PEP 249.

The store is written here, with one index and one foreign key, and so is what its definitions say: no engine is asked.
"""

import contextlib
import functools
import io
import pathlib
import random
import sqlite3
import tempfile
from unittest import mock

import piql
from piql import verify
from piql.keycodes import key_code
from piql.layout import Index, Layout, Limit, Reference, TableLayout, WrongDefinition
from piql.schema import read_table
from piql.stored import opened, read_stored_schema, stored_rows

TEXTS = (
    "CREATE TABLE towns (name TEXT(9), PRIMARY KEY (name));",
    "CREATE TABLE people (id INT, town TEXT(9), PRIMARY KEY (id), CARDINALITY LIMIT 99 (town),"
    " FOREIGN KEY (town) REFERENCES towns);",
)
TOWNS, PEOPLE = map(read_table, TEXTS)
LAYOUT = Layout(
    (
        TableLayout(1, "towns", TOWNS.columns, (0,), (), (), (), ()),
        TableLayout(
            2,
            "people",
            PEOPLE.columns,
            (0,),
            (Index(1, (1, 0), (False, False)),),
            (Limit(99, (1,)),),
            (Reference((1,), 1),),
            (),
        ),
    ),
    None,
)
PAGE = 4096
Pairs = list[tuple[bytes, bytes]]


def text_code(text: str) -> bytes:
    """A text within a row's code."""
    return len(text).to_bytes(2) + text.encode()


def sound_pairs() -> Pairs:
    """Two definitions, ten towns, and three hundred people with their entries."""
    found = [(bytes([1, 0, number]), b"\1\0" + text.encode()) for number, text in enumerate(TEXTS, 1)]
    for town in (f"t{number}" for number in range(10)):
        found.append((b"\2\1" + key_code([town]), b"\1" + text_code(town)))
    for number in range(300):
        town = f"t{number % 10}"
        found.append((b"\2\2" + key_code([number]), b"\2" + number.to_bytes(8) + text_code(town)))
        found.append((b"\3\2\1" + key_code([town, number]), b""))
    return sorted(found)


def pairs_of(path: pathlib.Path) -> Pairs | None:
    """The pairs of a file, or None where SQLite can't read them."""
    try:
        with contextlib.closing(sqlite3.connect(path)) as file:
            return file.execute("SELECT k, v FROM kv ORDER BY k").fetchall()
    except sqlite3.Error:
        return None


@functools.cache
def sound_file() -> bytes:
    """The bytes of a file with these pairs."""
    with tempfile.TemporaryDirectory() as folder:
        path = pathlib.Path(folder) / "sound.db"
        with contextlib.closing(sqlite3.connect(path)) as file:
            file.execute("CREATE TABLE kv(k BLOB PRIMARY KEY, v BLOB NOT NULL)")
            file.executemany("INSERT INTO kv VALUES (?, ?)", sound_pairs())
            file.commit()
        return path.read_bytes()


def spoil(draw: random.Random, data: bytearray) -> None:
    """One change: a bit, a byte, forty bytes, a page of zeros, two pages that change places, or an end that is lost."""
    at, page, other = draw.randrange(len(data)), *(PAGE * draw.randrange(len(data) // PAGE) for _ in range(2))
    kind = draw.randrange(6)
    if kind == 0:
        data[at] ^= 1 << draw.randrange(8)
    elif kind == 1:
        data[at] = draw.randrange(256)
    elif kind == 2:
        data[at : at + 40] = draw.randbytes(len(data[at : at + 40]))
    elif kind == 3:
        data[page : page + PAGE] = bytes(PAGE)
    elif kind == 4:
        data[page : page + PAGE], data[other : other + PAGE] = data[other : other + PAGE], data[page : page + PAGE]
    else:
        del data[at:]


def known_layout(texts: list[str], is_filling: bool, program: object) -> Layout:
    """In place of an engine that is asked for the definitions."""
    if tuple(texts) != TEXTS or is_filling:
        raise WrongDefinition(1, "it isn't the one that was written")
    return LAYOUT


def looked(path: pathlib.Path) -> bool:
    """Whether a look finds nothing."""
    with mock.patch.object(verify, "layout_of", known_layout):
        return verify.verify(str(path), io.StringIO(), io.StringIO()).differences == 0


def read_rows(path: pathlib.Path) -> None:
    """Reads all rows, as a dump does."""
    with opened(str(path)) as file:
        for number, table in enumerate(read_stored_schema(file).tables().values(), 1):
            for _ in stored_rows(file, number, table.columns):
                pass


def trial(draw: random.Random) -> str:
    """What is strange of one spoilt file, or nothing."""
    data = bytearray(sound_file())
    spoil(draw, data)
    with tempfile.TemporaryDirectory() as folder:
        path = pathlib.Path(folder) / "spoilt.db"
        path.write_bytes(data)
        try:
            is_sound = looked(path)
        except piql.Error:
            is_sound = False
        with contextlib.suppress(piql.Error):
            read_rows(path)
        return "a look found nothing, and pairs differ" if is_sound and pairs_of(path) != sound_pairs() else ""
