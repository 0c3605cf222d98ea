"""A release: a tar with the proved programs, the commands over them, the Python package, documents and examples.

It is made of what passed the gate: the programs are those that the gate has built, newer than all their sources, and
the log of the test command ends with no failure and is newer than the programs.
"""

import argparse
import hashlib
import io
import pathlib
import re
import subprocess
import tarfile
from collections.abc import Iterator, Mapping

from tools.launch import tell
from tools.programs import proved_build
from tools.repository import TOP, Repository
from tools.versions import MEANING, NUMBER

NAME = "release"
FAILED = 1
# Programs have this beginning; the one that runs the examples is for the gate.
BEGINNING, OF_GATE = "piql", "piql_examples"
COMMANDS = ("piql", "piql_file", "piql_clients", "tell", "plan", "dump", "piql-serve", "piql-shell")
# What the commands of a release stand on. The test runs each command from a release.
MODULES = """__init__ clients command dump kept launch picture plan plans pointing programs repository shapes statuses
tell versions words""".split()
FOLDERS = {"docs": "*.*", "docs/scripts": "*", "examples": "*.*", "drivers/python/piql": "**/*", "site": "**/*"}
FILES = ("README.md", "CHANGES.md", "CONTRIBUTING.md", "LICENSE", "NOTICE") + tuple(
    f"drivers/python/{name}" for name in ("pyproject.toml", "package.py")
)
PASSED = re.compile(r"[1-9][0-9]* passed, 0 failed")
Contents = dict[str, tuple[bytes, int]]


class NoRelease(Exception):
    """Why there is no release."""


def files_of(top: pathlib.Path) -> Iterator[pathlib.Path]:
    """The files that a release takes from a checkout as they are."""
    yield from (top / "bin" / name for name in COMMANDS)
    yield from (top / "bin/tools" / f"{name}.py" for name in MODULES)
    yield from (top / name for name in FILES)
    for folder, pattern in FOLDERS.items():
        found = sorted(path for path in (top / folder).glob(pattern) if path.is_file())
        yield from (path for path in found if path.suffix != ".pyc")


def told(top: pathlib.Path, gate: str) -> str:
    """What a release says of itself."""
    lines = {"version": f"{NUMBER} ({MEANING})", "gate": gate}
    for name, words in (("commit", ["git", "rev-parse", "HEAD"]), ("toolchain", ["rt", "version"])):
        run = subprocess.run(words, cwd=top, capture_output=True, text=True)
        lines[name] = run.stdout.strip()
    return "".join(f"{name}: {text}\n" for name, text in lines.items())


def contents(top: pathlib.Path, programs: Mapping[str, pathlib.Path], gate: str) -> Contents:
    """The files of a release by their names, each with its bytes and its mode."""
    found: Contents = {}
    for path in files_of(top):
        found[str(path.relative_to(top))] = path.read_bytes(), 0o755 if path.parent.name == "bin" else 0o644
    for name, program in programs.items():
        found[f"programs/{name}"] = program.read_bytes(), 0o755
    found["RELEASE"] = told(top, gate).encode(), 0o644
    sums = "".join(f"{hashlib.sha256(data).hexdigest()}  {name}\n" for name, (data, _) in sorted(found.items()))
    found["SHA256SUMS"] = sums.encode(), 0o644
    return found


def pack(found: Contents, folder: str, time: int) -> bytes:
    """The tar: the same for the same contents and time."""
    whole = io.BytesIO()
    with tarfile.open(fileobj=whole, mode="w", format=tarfile.PAX_FORMAT) as tar:
        for name, (data, mode) in sorted(found.items()):
            member = tarfile.TarInfo(f"{folder}/{name}")
            member.size, member.mode, member.mtime = len(data), mode, time
            tar.addfile(member, io.BytesIO(data))
    return whole.getvalue()


def write_release(top: pathlib.Path, programs: Mapping[str, pathlib.Path], gate: str, to: pathlib.Path) -> pathlib.Path:
    """Writes the tar and its checksum into a folder."""
    name = f"nithragwy-{NUMBER}-x86_64-linux"
    time = subprocess.run(["git", "log", "-1", "--format=%ct"], cwd=top, capture_output=True, text=True).stdout.strip()
    data = pack(contents(top, programs, gate), name, int(time or 0))
    to.mkdir(parents=True, exist_ok=True)
    path = to / f"{name}.tar"
    path.write_bytes(data)
    path.with_suffix(".tar.sha256").write_text(f"{hashlib.sha256(data).hexdigest()}  {path.name}\n")
    return path


def gate_line(log: pathlib.Path, programs: Mapping[str, pathlib.Path]) -> str:
    """The last line of the test command's log, if it tells of no failure and of these programs."""
    lines = log.read_text(errors="replace").splitlines()
    if not lines or not PASSED.fullmatch(lines[-1]):
        raise NoRelease(f"{log} doesn't end with `N passed, 0 failed`")
    if any(program.stat().st_mtime_ns > log.stat().st_mtime_ns for program in programs.values()):
        raise NoRelease(f"a program was built after {log} was written")
    return lines[-1]


def program_names(repository: Repository) -> list[str]:
    """The programs that a release has."""
    return [crate for crate in repository.uses if crate.startswith(BEGINNING) and crate != OF_GATE]


def proved_programs(top: pathlib.Path) -> dict[str, pathlib.Path]:
    """The programs that the gate has built."""
    repository = Repository(top)
    found = {name: proved_build(repository, name) for name in program_names(repository)}
    lacking = [name for name, program in found.items() if program is None]
    if lacking:
        names = " and ".join(lacking)
        raise NoRelease(f"there is no proved build of these sources of {names}; bin/test makes them all")
    return {name: program for name, program in found.items() if program is not None}


def main(words: list[str]) -> int:
    parser = argparse.ArgumentParser(prog="bin/release", description="Packs what passed the gate, in out/release/.")
    parser.add_argument("log", metavar="LOG", type=pathlib.Path, help="what bin/test wrote")
    given = parser.parse_args(words)
    try:
        programs = proved_programs(TOP)
        path = write_release(TOP, programs, gate_line(given.log, programs), TOP / "out/release")
    except (NoRelease, OSError) as error:
        tell(NAME, str(error))
        return FAILED
    print(path.relative_to(TOP))
    return 0
