"""The language without NULL: a script with tables and columns of the names `is` and `null`, and a store of before."""

import pathlib
import sqlite3
import subprocess
import tempfile
from collections.abc import Sequence

from inputs import Case, script_of
from reports import differences
from values import cursor

NAMED: list[Case] = [
    ("CREATE TABLE null (is INT, NULL TEXT(8), PRIMARY KEY (IS), CARDINALITY LIMIT 2 (Null))", "ok", []),
    ("CREATE TABLE Is (null INT, PRIMARY KEY (null), FOREIGN KEY (null) REFERENCES NULL)", "ok", []),
    ("INSERT INTO NULL VALUES (1, 'null')", "ok", []),
    ("INSERT INTO null (Null, is) VALUES ('is', 2)", "ok", []),
    ("INSERT INTO IS (NULL) VALUES (2)", "ok", []),
    ("INSERT INTO is VALUES (3)", "refused E505 is 1", []),
    ("PREPARE is AS SELECT is FROM null WHERE is = 1", "refused E201 is", []),
    ("PREPARE of_null AS SELECT is.is, is.null FROM null AS is WHERE is.null = [1: null]", "ok", []),
    ("RUN of_null ('null')", "ok rows 1", ["row 1, 'null'"]),
    ("RUN of_null ('is')", "ok rows 1", ["row 2, 'is'"]),
    (
        "PREPARE joined AS SELECT null.null, is.null FROM is null, null is WHERE null.null = [1] AND is.is = null.null",
        "ok",
        [],
    ),
    ("RUN joined (2)", "ok rows 1", ["row 2, 'is'"]),
    ("PREPARE ordered AS SELECT null FROM null ORDER BY null DESC LIMIT 1", "ok", []),
    ("RUN ordered", "ok rows 1", ["row 'null'"]),
    ("UPDATE null SET Null = 'x' WHERE IS = 1", "ok", []),
    ("EXPLAIN SELECT is FROM null WHERE null = null LIMIT 1", "refused E302 1", []),
    ("PREPARE compared AS SELECT is FROM null WHERE is = 1 AND null <> 'is'", "ok", []),
    ("RUN compared", "ok rows 1", ["row 1"]),
    (
        "SHOW",
        "ok",
        [
            "def 1 CREATE TABLE null (is INT, null TEXT(8), PRIMARY KEY (is), CARDINALITY LIMIT 2 (null));",
            "def 2 CREATE TABLE is (null INT, PRIMARY KEY (null), FOREIGN KEY (null) REFERENCES null);",
            "def 3 PREPARE of_null AS SELECT is.is, is.null FROM null AS is WHERE is.null = [1];",
            "def 4 PREPARE joined AS SELECT null.null, is.null FROM is AS null, null AS is"
            " WHERE null.null = [1] AND is.is = null.null;",
            "def 5 PREPARE ordered AS SELECT null.null FROM null AS null ORDER BY null.null DESC LIMIT 1;",
            "def 6 PREPARE compared AS SELECT null.is FROM null AS null WHERE null.is = 1 AND null.null <> 'is';",
        ],
    ),
    ("DELETE FROM null WHERE is = 2", "refused E506 is 1", []),
    ("DELETE FROM Is WHERE Null = 2", "ok", []),
    ("DELETE FROM Null WHERE Is = 2", "ok", []),
    ("RUN of_null ('is')", "ok rows 0", []),
]

DEFINITIONS = [
    "CREATE TABLE m (id INT, is BOOL, PRIMARY KEY (id));",
    "CREATE TABLE c (id INT, null INT, tag TEXT(8), PRIMARY KEY (id), CARDINALITY LIMIT 2 (tag),"
    " FOREIGN KEY (null) REFERENCES m);",
    "PREPARE tagged AS SELECT is.id FROM c AS is WHERE is.tag = [1];",
    "PREPARE last AS SELECT c.id, c.tag FROM c AS c ORDER BY c.tag DESC PAGINATE 2;",
    "PREPARE named AS SELECT null.id, m.is FROM c AS null, m AS m WHERE null.id = [1] AND m.id = null.null;",
]
# The rows (1, true) and (-1, false) of m; (1, 1, 'a'), (2, 1, '') and (3, -1, 'a') of c; and the entries of c by tag,
# by null and by tag descending. Each line is a key and its value.
PAIRS = """
    02 01 10 8000000000000001 / 02 0000000000000001 01
    02 01 10 7fffffffffffffff / 02 ffffffffffffffff 00
    02 02 10 8000000000000001 / 03 0000000000000001 0000000000000001 0001 61
    02 02 10 8000000000000002 / 03 0000000000000002 0000000000000001 0000
    02 02 10 8000000000000003 / 03 0000000000000003 ffffffffffffffff 0001 61
    03 02 01 10 61 0001 10 8000000000000001 /
    03 02 01 10 0001 10 8000000000000002 /
    03 02 01 10 61 0001 10 8000000000000003 /
    03 02 02 10 8000000000000001 10 8000000000000001 /
    03 02 02 10 8000000000000001 10 8000000000000002 /
    03 02 02 10 7fffffffffffffff 10 8000000000000003 /
    03 02 03 10 9e fffe 10 8000000000000001 /
    03 02 03 10 fffe 10 8000000000000002 /
    03 02 03 10 9e fffe 10 8000000000000003 /
"""
STORED: list[Case] = [
    ("SHOW", "ok", [f"def {number} {text}" for number, text in enumerate(DEFINITIONS, 1)]),
    ("RUN tagged ('a')", "ok rows 2", ["row 1", "row 3"]),
    ("RUN tagged ('')", "ok rows 1", ["row 2"]),
    ("RUN last", f"ok rows 2 next {cursor(4, ['a', 3], [True, False])}", ["row 1, 'a'", "row 3, 'a'"]),
    (f"RUN last AFTER '{cursor(4, ['a', 3], [True, False])}'", "ok rows 1", ["row 2, ''"]),
    ("RUN named (3)", "ok rows 1", ["row 3, false"]),
    ("INSERT INTO c VALUES (4, NULL, 'b')", "refused E501 c null", []),
    ("INSERT INTO c VALUES (4, 9, 'b')", "refused E505 c 1", []),
    ("INSERT INTO c VALUES (4, 1, 'a')", "refused E507 c 1 2", []),
    ("UPDATE c SET null = NULL WHERE id = 1", "refused E501 c null", []),
    ("DELETE FROM m WHERE id = 1", "refused E506 c 1", []),
]
SHAPE = "CREATE TABLE kv(k BLOB PRIMARY KEY, v BLOB NOT NULL)"


def stored_pairs() -> list[tuple[bytes, bytes]]:
    """The pairs of the store, in the order of their keys."""
    lines = [line.split("/") for line in PAIRS.strip().split("\n")]
    pairs = [(bytes.fromhex(key), bytes.fromhex(value)) for key, value in lines]
    for number, text in enumerate(DEFINITIONS, 1):
        pairs.append((b"\1" + number.to_bytes(2, "big"), b"\1\0" + text.encode()))
    return sorted(pairs)


def read_pairs(path: pathlib.Path) -> list[tuple[bytes, bytes]]:
    connection = sqlite3.connect(path)
    try:
        return connection.execute("SELECT k, v FROM kv ORDER BY k").fetchall()
    finally:
        connection.close()


def write_pairs(path: pathlib.Path, pairs: Sequence[tuple[bytes, bytes]]) -> None:
    connection = sqlite3.connect(path)
    try:
        connection.execute(SHAPE)
        connection.executemany("INSERT INTO kv VALUES (?, ?)", pairs)
        connection.commit()
    finally:
        connection.close()


def opened_store(words: Sequence[str]) -> list[str]:
    """What differs where the program over a file opens a store of before: in its reports, or in the store behind it."""
    statements, wanted = script_of(STORED)
    with tempfile.TemporaryDirectory() as folder:
        path = pathlib.Path(folder, "before.db")
        write_pairs(path, stored_pairs())
        done = subprocess.run([*words, str(path), "run"], input="\n".join(statements).encode(), capture_output=True)
        found = [] if done.returncode == 1 else [f"status {done.returncode}, not 1: {done.stderr.decode()}"]
        found += differences(done.stdout, f"open defs {len(DEFINITIONS)} ", statements, wanted)
        if read_pairs(path) != stored_pairs():
            found.append("the store of before has other pairs than it had")
    print(f"the store of before: {len(statements)} statements, {len(found)} differ")
    return found
