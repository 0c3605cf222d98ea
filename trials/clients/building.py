"""The program that plays orders: compiled without a proof, in a copy of the crates that it stands on, and kept."""

from __future__ import annotations

import hashlib
import os
import pathlib
import re
import shutil
import subprocess
import sys
import tempfile
import time

TOP = pathlib.Path(__file__).resolve().parents[2]
sys.path.append(str(TOP / "bin"))

from tools.kept import PAUSE, alone, keep_running  # noqa: E402 - the tools stand there
from tools.repository import Repository  # noqa: E402

NAME = "clients_trial"
SOURCES = pathlib.Path(__file__).resolve().parent / "program"
USES = (
    "pq_base pq_schema pq_text pq_def_read pq_store pq_mem_store pq_print pq_index_keep pq_opening pq_step pq_shell "
    "pq_clients pq_test_faults"
)
KEPT = TOP / "out" / "unproved"
FIELD = re.compile(r"^(file|old|new): (.*)$", re.MULTILINE)
# Input over which the program takes some seconds, so that it is seen as it runs.
SLOW = "".join(
    [
        "run CREATE TABLE p (id INT, PRIMARY KEY (id));\n",
        *(f"write {client} INSERT INTO p VALUES ({client});\n" for client in (1, 2)),
        *("order 01 +\n" for _ in range(20_000)),
    ]
)


class NotBuilt(Exception):
    """Why there is no program."""


def copy_sources(room: pathlib.Path) -> None:
    """A checkout of the crates that the program stands on, and of the program as one of them."""
    repository = Repository(TOP)
    names = frozenset(USES.split()).union(*(repository.below(name) for name in USES.split()))
    for name in sorted(names):
        for part in ("src", "specs"):
            if (repository.folder(name) / part).is_dir():
                shutil.copytree(repository.folder(name) / part, room / "crates" / name / part)
    sources = room / "crates" / NAME / "src"
    sources.mkdir(parents=True)
    for path in SOURCES.glob("*.rattle"):
        shutil.copy2(path, sources / f"{path.stem}.rt")
    lines = [f"{name}: {' '.join(repository.uses[name])}" for name in sorted(names)]
    (room / "crates.txt").write_text("\n".join([*lines, f"{NAME}: {USES}", ""]))


def apply_edit(room: pathlib.Path, edit: pathlib.Path) -> None:
    """Changes a crate by the edit of a wrong body, which stands in a folder of the crate's name."""
    fields = FIELD.findall(edit.read_text())
    path = room / "crates" / edit.parent.name / fields[0][1]
    text = path.read_text()
    for (_, old), (_, new) in zip(fields[1::2], fields[2::2]):
        if text.count(old) != 1:
            raise NotBuilt(f"{edit}: `{old}` isn't there once")
        text = text.replace(old, new)
    path.write_text(text)


def sum_of(room: pathlib.Path) -> str:
    found = hashlib.sha256()
    for path in sorted(room.rglob("*")):
        if path.is_file() and (path.suffix == ".rt" or path.name == "crates.txt"):
            found.update(repr((str(path.relative_to(room)), path.read_bytes())).encode())
    return found.hexdigest()[:16]


def compile_in(room: pathlib.Path) -> pathlib.Path:
    """Has the toolchain compile the program and run it, and keeps it as it runs."""
    cases, runs, lines, kept = room / "cases", room / "runs", room / "lines", room / "kept"
    cases.mkdir()
    runs.mkdir()
    (cases / "orders").write_text(SLOW)
    words = ["rt", "try", NAME, "--cases", str(cases), "--", "orders"]
    how = {"stdin": subprocess.DEVNULL, "stdout": subprocess.DEVNULL, "env": {**os.environ, "TMPDIR": str(runs)}}
    with lines.open("wb") as errors:
        run = subprocess.Popen(words, cwd=room / "crates" / NAME, stderr=errors, **how)
        try:
            while not keep_running(runs, kept) and run.poll() is None:
                time.sleep(PAUSE)
        finally:
            run.terminate()
            run.wait()
    if not kept.exists():
        raise NotBuilt(f"the program doesn't compile:\n{lines.read_text(errors='replace')}")
    return kept


def build(edit: pathlib.Path | None) -> pathlib.Path:
    """The kept program of these sources, with a wrong body where one is named. It is made where it isn't there."""
    with alone(KEPT, NAME), tempfile.TemporaryDirectory(dir=KEPT) as work:
        room = pathlib.Path(work)
        copy_sources(room)
        if edit:
            apply_edit(room, edit)
        kind = "-" + edit.stem if edit else ""
        program = KEPT / f"{NAME}{kind}-{sum_of(room)}"
        if not program.exists():
            print("clients: compiling the program once, without proofs; this takes some minutes", file=sys.stderr)
            made = compile_in(room)
            for old in KEPT.glob(f"{NAME}{kind}-{'?' * 16}"):
                old.unlink()
            made.rename(program)
    return program
