"""Runs the scripts of examples/, and compares what they write with the files beside them and with the documents."""

import difflib
import os
import pathlib
import re
import subprocess
import sys
from collections.abc import Iterator

from tools import names
from tools.documents import LEFT_OUT, blocks
from tools.programs import find_program
from tools.repository import TOP
from tools.statuses import USAGE

REFUSAL = re.compile(rb"^\d+ refused ", re.MULTILINE)
EXAMPLES = TOP / "examples"
SCRIPTS = TOP / "docs/scripts"
# Of each program over one script the script of its stored run, and what it writes but for the used numbers.
STORED = {"piql": ("row.piql", "row.out"), "piql_file": ("empty.piql", "opened.out")}
USED = re.compile(rb" used \d+ \d+$", re.MULTILINE)
ENDINGS = {"piql": ".piql", "report": ".out"}
RUNNER = TOP / "crates/piql_examples"


def difference(wanted: bytes, written: bytes, context: int = 3) -> list[str]:
    """The lines in which two texts differ."""
    texts = [text.decode(errors="replace").split("\n") for text in (wanted, written)]
    return list(difflib.unified_diff(*texts, "wanted", "written", lineterm="", n=context))


def differences(program: pathlib.Path | str, script: pathlib.Path) -> list[str]:
    """What is wrong with what a program writes for an example, and with its status."""
    wanted = script.with_suffix(".out").read_bytes()
    status = 1 if REFUSAL.search(wanted) else 0
    with script.open("rb") as source:
        run = subprocess.run([program, "run"], stdin=source, stdout=subprocess.PIPE)
    found = difference(wanted, run.stdout)
    return found if run.returncode == status else [*found, f"status {run.returncode}, not {status}"]


def stands_in(block: str, text: str) -> bool:
    """Whether the parts of a block stand in a text, whole lines, one after the other."""
    place, text = 0, "\n" + text
    for part in re.split(rf"^{re.escape(LEFT_OUT)}\n", block, flags=re.MULTILINE):
        found = text.find("\n" + part, place)
        if found < 0:
            return False
        place = found + len(part)
    return True


def strange_blocks(kind: str) -> Iterator[str]:
    """The places of the blocks of a kind in the documents that stand in no file of that kind."""
    paths = [path for folder in (EXAMPLES, SCRIPTS) for path in sorted(folder.glob("*" + ENDINGS[kind]))]
    texts = [path.read_bytes().decode(errors="replace") for path in paths]
    for document in [TOP / "README.md", *sorted((TOP / "docs").glob("*.md"))]:
        for block in blocks(document, kind):
            if not any(stands_in(block.text, text) for text in texts):
                yield block.place


def stored(crate: str, file: str) -> bytes:
    """A file of a program's stored run without its used numbers; none is an empty one."""
    path = TOP / "crates" / crate / file
    return USED.sub(b"", path.read_bytes()) if path.exists() else b""


def strange_runs(scripts: list[pathlib.Path]) -> Iterator[str]:
    """Which stored runs aren't those of the cases, or of the examples."""
    for crate, (script, output) in STORED.items():
        for file, name in (("stdin", script), ("stdout", output)):
            if stored(crate, file) != (EXAMPLES / "runs" / name).read_bytes():
                yield f"crates/{crate}/{file} isn't the case {name}"
    if (RUNNER / "args").read_text().split() != [script.stem for script in scripts]:
        yield "crates/piql_examples/args doesn't name the examples in order"


def differing_cases() -> list[str]:
    """The lines of the stored run of piql_examples that aren't written, or another in their place."""
    files = [path.relative_to(RUNNER / "data") for path in sorted((RUNNER / "data").rglob("*.*"))]
    words = ["rt", "try", "piql_examples", "--seconds", "600"]
    words += [word for name in files for word in ("--data", f"{name}=data/{name}")]
    words += ["--", *(RUNNER / "args").read_text().split()]
    run = subprocess.run(words, cwd=RUNNER, input=(RUNNER / "stdin").read_bytes(), capture_output=True)
    found = difference((RUNNER / "stdout").read_bytes(), run.stdout, context=0)
    return [*found, run.stderr.decode(errors="replace")] if run.returncode else found


def main(words: list[str]) -> int:
    if words == ["--runs"]:
        found = differing_cases()
        print(*found or ["all as written"], sep="\n")
        return 1 if found else 0
    scripts = sorted(EXAMPLES.glob("*.piql"))
    program = words[0] if words else find_program("piql").path
    if not os.access(program, os.X_OK):
        print(f"examples: there is no program {program}", file=sys.stderr)
        return USAGE
    is_right = True
    for script in scripts:
        found = differences(program, script)
        print(f"{script.name}: {'as written' if not found else 'differs'}", *found, sep="\n  ")
        is_right = is_right and not found
    strange = [*strange_runs(scripts)]
    strange += [f"{place}: no example has this block" for kind in ENDINGS for place in strange_blocks(kind)]
    print(*strange, sep="\n", end="\n" if strange else "")
    return 0 if names.main([]) == 0 and is_right and not strange else 1
