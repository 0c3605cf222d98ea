"""How many syncs a statement waits for, counted by strace. A batch waits for one, however many writes it has."""

import pathlib
import re
import shutil
import subprocess

from common import answers, expect, fail, knows_batches, remove

COUNTED = re.compile(r"^ *\S+ +\S+ +\S+ +(\d+) .*\bf(?:data)?sync$", re.MULTILINE)
# How many statements of a kind are counted together.
NUMBER = 20
# Numbers of indexes of a table, of rows over which one is filled, and of writes of a batch.
INDEXES, ROWS, BATCHES = (0, 1, 9), (600, 2000), (1, 2, 256)


def prepare(column: int) -> bytes:
    """A query that makes an index."""
    return f"PREPARE q{column} AS SELECT m.id FROM m ORDER BY m.c{column} LIMIT 10;\n".encode()


def table(indexes: int) -> bytes:
    """A table with so many indexes."""
    columns = "".join(f"c{i} INT, " for i in range(max(indexes, 1)))
    made = f"CREATE TABLE m (id INT, {columns}PRIMARY KEY (id));\n".encode()
    return made + b"".join(prepare(column) for column in range(indexes))


def inserts(first: int, number: int, columns: int) -> bytes:
    rows = (f"INSERT INTO m VALUES ({', '.join([str(key)] * (columns + 1))});\n" for key in range(first, first + number))
    return "".join(rows).encode()


def updates(number: int, columns: int) -> bytes:
    """Each changes all columns, and so an entry of each index."""
    changes = ", ".join(f"c{i} = [v]" for i in range(columns))
    texts = (f"UPDATE m SET {changes.replace('[v]', str(key + 1))} WHERE id = {key};\n" for key in range(number))
    return "".join(texts).encode()


def deletes(number: int) -> bytes:
    return "".join(f"DELETE FROM m WHERE id = {key};\n" for key in range(number)).encode()


def batches(number: int, writes: int) -> bytes:
    """Batches with so many INSERTs each into a table with an index, whose rows are like none before."""
    found = []
    for first in range(0, number * writes, writes):
        rows = (f"INSERT INTO m VALUES ({key}, {key})" for key in range(first, first + writes))
        found.append(f"BATCH {', '.join(rows)};\n")
    return "".join(found).encode()


def waited(program: pathlib.Path, path: pathlib.Path, script: bytes) -> int:
    """How many syncs a run over a file makes."""
    counts = path.with_suffix(".counts")
    words = ["strace", "-f", "-c", "-e", "trace=fdatasync,fsync", "-o", counts, program, path, "run"]
    done = subprocess.run(words, input=script, capture_output=True)
    if done.returncode != 0:
        fail("a run that is counted", f"status {done.returncode}, {done.stdout[-200:] + done.stderr!r}")
    return sum(int(number) for number in COUNTED.findall(counts.read_text()))


def waits(program: pathlib.Path, path: pathlib.Path, before: bytes, script: bytes) -> int:
    """How many syncs a script waits for over a file that another has made, beyond those of its opening and closing.

    Those are of a run with one definition, which is one write of the store and one sync."""
    remove(path)
    answers(program, path, before)
    ends = waited(program, path, b"CREATE TABLE other (id INT, PRIMARY KEY (id));\n") - 1
    return waited(program, path, script) - ends


def tell_batches(program: pathlib.Path, path: pathlib.Path) -> None:
    """Counts the syncs of batches, of which each has one."""
    for writes in BATCHES:
        found = waits(program, path, table(1), batches(NUMBER, writes))
        expect(f"the syncs of {NUMBER} batches of {writes} writes", NUMBER, found)
    print(f"{program.name}: {NUMBER} syncs of {NUMBER} batches of {', '.join(map(str, BATCHES))} writes", flush=True)


def tell(program: pathlib.Path, folder: pathlib.Path) -> None:
    """Prints the counts of a program."""
    if shutil.which("strace") is None:
        print("syncs: there is no strace", flush=True)
        return
    path = folder / "syncs.db"
    for indexes in INDEXES:
        columns = max(indexes, 1)
        made, rows = table(indexes), inserts(0, NUMBER, columns)
        found = [
            waits(program, path, made, rows),
            waits(program, path, made + rows, updates(NUMBER, columns)),
            waits(program, path, made + rows, deletes(NUMBER)),
        ]
        print(f"{program.name}, {indexes} indexes: {found} syncs of {NUMBER} INSERTs, UPDATEs, DELETEs", flush=True)
    for number in ROWS:
        found = waits(program, path, table(0) + inserts(0, number, 1), prepare(0))
        print(f"{program.name}: {found} syncs of a PREPARE with an index over {number} rows", flush=True)
    if knows_batches(program, folder):
        tell_batches(program, path)
