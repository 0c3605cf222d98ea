"""Programs that are measured: their time, their peak, their instructions and their allocations."""

import os
import pathlib
import re
import subprocess
import sys
import tempfile
from collections.abc import Mapping, Sequence
from dataclasses import dataclass

Word = str | os.PathLike[str]
RUNS = 3
# What a program has in its environment besides this process's.
NOTHING: Mapping[str, str] = {}
COLLECTED = re.compile(rb"Collected : (\d+)")
# In callgrind's file a function has its name where it is met first, `(12) malloc`, and then its number alone.
MALLOC_NAMED = re.compile(r"^c?fn=\((\d+)\) (?:malloc|_rl_malloc)$", re.MULTILINE)


@dataclass(frozen=True, order=True)
class Taken:
    """What a run took: seconds of the processor, and its peak in kilobytes."""

    seconds: float
    peak: int


@dataclass(frozen=True)
class Counts:
    """What callgrind counts of a run."""

    instructions: int
    mallocs: int

    def __sub__(self, other: "Counts") -> "Counts":
        return Counts(self.instructions - other.instructions, self.mallocs - other.mallocs)


class Children:
    """Runs programs from a small one (child.c), which stands in a folder."""

    def __init__(self, folder: pathlib.Path) -> None:
        self.folder, self.child = folder, folder / "child"
        source = pathlib.Path(__file__).with_name("child.c")
        subprocess.run(["cc", "-O2", "-o", self.child, source], check=True)

    def measured(self, words: Sequence[Word], script: Word, environment: Mapping[str, str]) -> Taken:
        """A run over a script as its standard input. One that fails ends the benchmark."""
        told, given = self.folder / "told", {**os.environ, **environment}
        with open(script, "rb") as source:
            subprocess.run([self.child, told, *words], stdin=source, stdout=subprocess.DEVNULL, check=True, env=given)
        status, microseconds, peak = map(int, told.read_text().split())
        if status != 0:
            sys.exit(f"bench: {words[0]} ended with status {os.waitstatus_to_exitcode(status)}")
        return Taken(microseconds / 1e6, peak)

    def least(self, words: Sequence[Word], script: Word, environment: Mapping[str, str] = NOTHING) -> Taken:
        """The run of some that took the least time."""
        return min(self.measured(words, script, environment) for _ in range(RUNS))


def malloc_calls(profile: str) -> int:
    """How often malloc is called, by the text of a callgrind file."""
    named = MALLOC_NAMED.search(profile)
    if named is None:
        return 0
    calls = re.compile(rf"^cfn=\({named[1]}\)[^\n]*\ncalls=(\d+)", re.MULTILINE)
    return sum(int(found[1]) for found in calls.finditer(profile))


def counted(words: Sequence[Word], script: Word, environment: Mapping[str, str] = NOTHING) -> Counts:
    """A program's instructions and mallocs for a script, by callgrind."""
    with tempfile.TemporaryDirectory() as folder, open(script, "rb") as source:
        out = pathlib.Path(folder, "out")
        # Lines of one function stand together, and no name of a file stands between a callee and its calls.
        tool = ["valgrind", "--tool=callgrind", "--compress-pos=no", f"--callgrind-out-file={out}"]
        how = {"stdin": source, "stdout": subprocess.DEVNULL, "stderr": subprocess.PIPE}
        done = subprocess.run([*tool, *words], env={**os.environ, **environment}, **how)
        found = COLLECTED.search(done.stderr)
        if done.returncode != 0 or found is None:
            sys.exit(f"bench: {words[0]} can't be counted: {done.stderr[-300:].decode(errors='replace')}")
        return Counts(int(found[1]), malloc_calls(out.read_text(errors="replace")))
