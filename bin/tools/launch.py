"""Running a program: its words are looked at first, then the program is found, and what its end says is told."""

import ctypes
import signal
import subprocess
import sys
from collections.abc import Callable, Sequence
from typing import BinaryIO

from piql.allocator import engine_environment
from piql.causes import cause_of
from tools.kept import NotBuilt
from tools.programs import Program, find_program, proved_program
from tools.statuses import NO_PROGRAM, STORE_FAULT, USAGE, meaning
from tools.versions import MEANING, NUMBER
from tools.words import Asked, Wrong, check_script, help_of, read_words, shown, usage

AT_A_TERMINAL = "type statements, each with a ; at its end: each is answered at once. Control-D ends the script"
UNPROVED = "this run is not proved, and is slow; bin/prove proves and builds the program"
PASSED_ON = (signal.SIGTERM, signal.SIGHUP)
# Linux's number for asking that a signal comes when the parent ends.
PARENT_DEATH_SIGNAL = 1


def tell(name: str, line: str) -> None:
    """A line on standard error, where no report is."""
    print(f"{name}: {line}", file=sys.stderr, flush=True)


def begin_program() -> None:
    """Asks that this process is killed when the one that started it is, so that no program holds a file alone."""
    ctypes.CDLL(None).prctl(PARENT_DEATH_SIGNAL, signal.SIGKILL)
    signal.pthread_sigmask(signal.SIG_UNBLOCK, PASSED_ON)


def run_once(program: Program, words: list[str], script: BinaryIO | None) -> int:
    """Runs the program over a script or standard input. A signal that ends this process ends the program first."""
    # A signal that comes before there is a program waits until there is one.
    signal.pthread_sigmask(signal.SIG_BLOCK, PASSED_ON)
    how = {"stdin": script, "preexec_fn": begin_program, "env": engine_environment()}
    run = subprocess.Popen([program.path, *words], **how)
    for number in PASSED_ON:
        signal.signal(number, lambda given, _: run.send_signal(given))
    signal.pthread_sigmask(signal.SIG_UNBLOCK, PASSED_ON)
    # An interrupt at the terminal reaches the program by itself.
    signal.signal(signal.SIGINT, lambda *_: None)
    return run.wait()


def run_all(name: str, program: Program, asked: Asked) -> int:
    """Runs each script, up to one that doesn't end well over a file. The status is the greatest."""
    worst = 0
    for script in asked.scripts:
        if len(asked.scripts) > 1:
            print(f"== {shown(script)}", flush=True)
        with open(script, "rb") as opened:
            status = ended(name, run_once(program, asked.words, opened), asked.words)
        worst = max(worst, status)
        if status >= NO_PROGRAM or status > 1 and name == "piql_file":
            break
    return worst


def ended(name: str, status: int, words: Sequence[str] = ()) -> int:
    """Tells what a status says, and gives it as a shell does. Why a file can't be used is told first, if it shows."""
    if name == "piql_file" and status == STORE_FAULT:
        tell(name, cause_of(words[0]))
    if line := meaning(name, status):
        print(line, file=sys.stderr, flush=True)
    return status if status >= 0 else 128 - status


def version(name: str) -> str:
    """The version, and whether the program is proved."""
    return f"{name} {NUMBER} ({MEANING}), {'proved' if proved_program(name) else 'not proved'}"


def found(name: str) -> Program | None:
    """The program; what keeps it from being proved, or from being there, is told."""
    try:
        program = find_program(name)
    except NotBuilt as error:
        tell(name, str(error))
        return None
    if not program.is_proved:
        tell(name, UNPROVED)
    return program


def written(name: str, words: list[str], script: str) -> tuple[str, int]:
    """What a program writes of a script, and its status; a bad end is told."""
    with open(script, "rb") as opened:
        how = {"stdin": opened, "stdout": subprocess.PIPE, "env": engine_environment()}
        run = subprocess.run([find_program(name).path, *words], **how)
    if line := meaning(name, run.returncode):
        print(line, file=sys.stderr)
    return run.stdout.decode(errors="replace"), run.returncode


def written_of(script: str, kept: str | None, run: Callable[[], tuple[str, int]]) -> tuple[str, int]:
    """What a run of a script writes, and its status; or what a run before wrote, where its file is given."""
    check_script(script)
    if not kept:
        return run()
    with open(kept, encoding="utf-8", errors="replace") as file:
        return file.read(), 0


def run_asked(name: str, asked: Asked) -> int:
    """Finds the program and runs it."""
    program = found(name)
    if program is None:
        return NO_PROGRAM
    if asked.reads_input and sys.stdin.isatty():
        tell(name, AT_A_TERMINAL)
    if asked.scripts:
        return run_all(name, program, asked)
    return ended(name, run_once(program, asked.words, None), asked.words)


def main(name: str, words: list[str]) -> int:
    if "--help" in words:
        print(help_of(name))
        return 0
    if words == ["--version"]:
        print(version(name))
        return 0
    try:
        asked = read_words(name, words)
    except Wrong as error:
        tell(name, str(error))
        if error.status != STORE_FAULT:
            print(usage(name), file=sys.stderr)
        return error.status
    return run_asked(name, asked)
