"""The program that the trials run: its proved build, or the same sources without a proof."""

import os
import pathlib
import re
import subprocess
import tempfile
from dataclasses import dataclass

TOP = pathlib.Path(__file__).resolve().parent.parent
BUILD = TOP / "crates/piql/out/piql"
FILE_BUILD = TOP / "crates/piql_file/out/piql_file"
EXAMPLES = TOP / "examples"
# The seconds after which a run counts as one that hangs.
LIMIT = 60
OPENING = b"open defs 0 bound 2 257 used 2 0\n"
END = re.compile(rb"^(\d+) (ok|refused)\b.* bound (\d+) (\d+) used (\d+) (\d+)\n", re.MULTILINE)
CASE = re.compile(rb"^case=(\S+) run=(\S+)(?: status=(\d+))?", re.MULTILINE)


@dataclass(frozen=True)
class Ended:
    """How a run ended: with a status, by a signal (below 0) or not within the limit (None); and what it wrote."""

    status: int | None
    output: bytes
    errors: bytes = b""


def examples():
    """The scripts of the examples, by name."""
    return {path.stem: path.read_bytes() for path in sorted(EXAMPLES.glob("*.piql"))}


def is_fresh(build):
    """Whether the build is there and no source is newer, as bin/piql finds it."""
    if not os.access(build, os.X_OK):
        return False
    sources = ["find", TOP / "crates", TOP / "crates.txt", "(", "-name", "out", "-o", "-name", "data", ")", "-prune"]
    words = [*sources, "-o", "-type", "f", "-newer", build, "-print"]
    return subprocess.run(words, capture_output=True, check=True).stdout == b""


def run(build, script, environment=None, path=None):
    """How a build ends that reads this script, over a file where there is a path."""
    try:
        words = [build, path, "run"] if path else [build, "run"]
        done = subprocess.run(words, input=script, capture_output=True, timeout=LIMIT, env=environment)
    except subprocess.TimeoutExpired:
        return Ended(None, b"")
    return Ended(done.returncode, done.stdout, done.stderr)


def run_sources(scripts):
    """How the sources end that read each of these scripts, in order: built once, with checks as they run."""
    with tempfile.TemporaryDirectory() as folder:
        for number, script in enumerate(scripts):
            pathlib.Path(folder, f"{number:07}").write_bytes(script)
        words = ["rt", "try", "piql", "--cases", folder, "--seconds", str(LIMIT), "--", "run"]
        done = subprocess.run(words, cwd=TOP / "crates/piql", capture_output=True)
    parts = re.split(rb"^== (\d{7})\n", done.stdout, flags=re.MULTILINE)
    outputs = dict(zip(parts[1::2], parts[2::2]))
    ends = {}
    for name, end, status in CASE.findall(done.stderr):
        ended = end == b"ended"
        ends[int(name)] = Ended(int(status) if ended else None, outputs.get(name, b""), b"" if ended else end)
    if sorted(ends) != list(range(len(scripts))):
        few = f"trials: the sources answered for {len(ends)} of {len(scripts)} scripts"
        raise SystemExit(f"{few}\n{done.stderr.decode()}")
    return [ends[number] for number in range(len(scripts))]


def whole_parts(output):
    """How much of an output is the opening's line and whole reports behind it, and how many parts these are."""
    if not output.startswith(OPENING):
        return 0, 0
    place, parts = len(OPENING), 1
    for end in END.finditer(output):
        place, parts = end.end(), parts + 1
    return place, parts
