"""Tries the wrong bodies of crates in a copy of the checkout."""

import datetime
import pathlib
import re
import shutil
import subprocess
import sys
import tempfile

from tools import results
from tools.repository import TOP, Repository

RESULTS = TOP / "mutants" / "RESULTS"
# Of the tool's lines those that tell of one edit.
OF_EDIT = re.compile(r"rt: must-fail (\w+)/(\S+)\.edit: (.*)")
REFUSED = "refused, as it must be"


def copy_sources(top: pathlib.Path, room: pathlib.Path) -> None:
    """Copies what git keeps, or would keep, as it stands in the checkout."""
    words = ["git", "ls-files", "-z", "--cached", "--others", "--exclude-standard"]
    names = subprocess.run(words, cwd=top, capture_output=True, text=True, check=True).stdout
    for name in filter(None, names.split("\0")):
        if (top / name).is_file():
            (room / name).parent.mkdir(parents=True, exist_ok=True)
            shutil.copy2(top / name, room / name, follow_symlinks=False)


def revision_of(top: pathlib.Path) -> str:
    """The commit that a checkout is of, and whether what is tried or proved there is another than the commit's."""

    def said(*words: str) -> str:
        return subprocess.run(["git", *words], cwd=top, capture_output=True, text=True, check=True).stdout.strip()

    changed = said("status", "--porcelain", "--", "crates", "crates.txt", "mutants/*/*.edit")
    return said("rev-parse", "--short=8", "HEAD") + (" with changes" if changed else "")


def gather(copy: Repository, crate: str, only: list[str]) -> int:
    """Puts edits of a crate, all or those of these names, where the toolchain looks for them, and counts them."""
    edits = copy.edits(crate)
    if len({path.name for path in edits}) < len(edits):
        raise SystemExit(f"mutants: two edits of {crate} have one name")
    wanted = {path.name: path.read_text() for path in edits if not only or path.stem in only}
    for name in copy.uses:
        shutil.rmtree(copy.folder(name) / "must-fail", ignore_errors=True)
    folder = copy.folder(crate) / "must-fail"
    folder.mkdir()
    for name, text in wanted.items():
        (folder / name).write_text(text)
    return len(wanted)


def refused_of(crate: str, room: pathlib.Path) -> int:
    """Proves a crate and tries its edits, tells what was found of each, and returns how many were refused."""
    words = ["rt", "ci", crate]
    how = {"stdout": subprocess.PIPE, "stderr": subprocess.STDOUT, "text": True, "errors": "replace"}
    tried, refused, lines = 0, 0, []
    with subprocess.Popen(words, cwd=room, stdin=subprocess.DEVNULL, **how) as run:
        for line in run.stdout or ():
            lines.append(line)
            if (found := OF_EDIT.match(line)) and found[1] == crate:
                print(f"{found[1]}/{found[2]}: {found[3]}", flush=True)
                tried += 1
                refused += found[3].startswith(REFUSED)
    if not tried:
        # Over a crate that isn't proved as it stands no refusal would show anything.
        print(f"{crate}: no edit was tried; the toolchain said:", *lines[-12:], sep="\n  ")
    return refused


def try_crate(crate: str, toolchain: str, only: list[str]) -> results.Result:
    """Tries edits of a crate in a copy of the checkout."""
    with tempfile.TemporaryDirectory(prefix="mutants-") as name:
        room = pathlib.Path(name)
        copy_sources(TOP, room)
        copy = Repository(room)
        revision, sources, tried = revision_of(TOP), copy.source_sum(crate), gather(copy, crate, only)
        refused = refused_of(crate, room)
    when = datetime.datetime.now(datetime.UTC).strftime("%Y-%m-%dT%H:%MZ")
    return results.Result(crate, refused, tried, revision, sources, when, toolchain)


def try_all(repository: Repository, crates: list[str], only: list[str]) -> int:
    """Tries the edits of these crates, and keeps what it found of each whole crate as soon as it is known."""
    toolchain = subprocess.run(["rt", "version"], capture_output=True, text=True, check=True).stdout.strip()
    failed = []
    for crate in crates:
        result = try_crate(crate, toolchain, only)
        if not only:
            results.keep(RESULTS, result, repository.crates_with_edits())
        print(result.line(), flush=True)
        if result.refused < result.tried:
            failed.append(crate)
    if failed:
        print("mutants: not all refused:", *failed)
    return 1 if failed else 0


def main(words: list[str]) -> int:
    repository = Repository()
    if words == ["--stale"]:
        lines = results.stale(repository, results.read(RESULTS))
        print(*lines, sep="\n", end="\n" if lines else "")
        return 1 if lines else 0
    crates, only = repository.crates_with_edits(), []
    if "--only" in words:
        place = words.index("--only")
        words, only = words[:place], words[place + 1 :]
        names = [path.stem for crate in words if crate in crates for path in repository.edits(crate)]
        if len(words) != 1 or not only or any(name not in names for name in only):
            print("mutants: --only stands behind one crate, and before names of its wrong bodies", file=sys.stderr)
            return 2
    if strange := [word for word in words if word not in crates]:
        print("mutants: no crate with wrong bodies:", *strange, file=sys.stderr)
        return 2
    return try_all(repository, words or crates, only)
