"""The gate, then the tests of the tools."""

import concurrent.futures
import dataclasses
import os
import pathlib
import re
import signal
import subprocess
import sys
import time

from tools.repository import TOP

# Where tools stand. Each folder `tests` below one of them is run.
PLACES = ("bin", "drivers", "site", "trials")
SECONDS = 360
COUNT = re.compile(r"(\d+) passed, (\d+) failed\s*")


@dataclasses.dataclass(frozen=True)
class Outcome:
    """How many passed and how many failed."""

    passed: int
    failed: int

    def __add__(self, other: "Outcome") -> "Outcome":
        return Outcome(self.passed + other.passed, self.failed + other.failed)

    def __str__(self) -> str:
        return f"{self.passed} passed, {self.failed} failed"


def run_gate(words: list[str]) -> Outcome:
    """Runs the gate, passes its lines on, and reads its last count. A gate that doesn't end well has failed."""
    counted, status = None, 1
    try:
        how = {"stdout": subprocess.PIPE, "text": True, "errors": "replace"}
        with subprocess.Popen(words, cwd=TOP, **how) as run:
            for line in run.stdout or ():
                if count := COUNT.fullmatch(line):
                    counted = Outcome(int(count[1]), int(count[2]))
                else:
                    print(line, end="", flush=True)
        status = run.returncode
    except OSError as error:
        print(f"test: {' '.join(words)} can't be run: {error}")
    outcome = counted or Outcome(0, 1)
    if status and not outcome.failed:
        outcome += Outcome(0, 1)
    print(f"the gate: {outcome}", flush=True)
    return outcome


def modules() -> list[pathlib.Path]:
    """The modules of the tools' tests."""
    return sorted(path for place in PLACES for path in (TOP / place).rglob("tests/test_*.py"))


def outcome_of(output: str, status: int) -> Outcome:
    """What unittest's own last lines say. Where they say nothing, one test failed. What was skipped did neither."""
    ran = re.search(r"^Ran (\d+) tests? in ", output, re.MULTILINE)
    ended = re.search(r"^(?:OK|FAILED|NO TESTS RAN)(?: \((.*)\))?$", output, re.MULTILINE)
    if not ran or not ended:
        return Outcome(0, 1)
    counts = {name: int(count) for name, count in re.findall(r"([a-z][a-z ]*)=(\d+)", ended[1] or "")}
    failed = sum(counts.get(name, 0) for name in ("failures", "errors", "unexpected successes"))
    passed = int(ran[1]) - failed - counts.get("skipped", 0)
    return Outcome(max(passed, 0), max(failed, int(status != 0)))


def environment() -> dict[str, str]:
    """That of the tests. What they write lies in memory, where programs may be run from there: no disk slows them."""
    memory = pathlib.Path("/dev/shm")
    if os.access(memory, os.W_OK) and not os.statvfs(memory).f_flag & os.ST_NOEXEC:
        return {**os.environ, "TMPDIR": str(memory)}
    return dict(os.environ)


def written(module: pathlib.Path, end: float) -> tuple[Outcome, str]:
    """Runs the tests of one module, which has until then; how it ended, and what it wrote."""
    top = module.parent
    while (top / "__init__.py").exists():
        top = top.parent
    words = [sys.executable, "-B", "-m", "unittest", "discover", "-v", "-s", str(module.parent.relative_to(top))]
    how = {"stdout": subprocess.PIPE, "stderr": subprocess.STDOUT, "text": True, "errors": "replace"}
    run = subprocess.Popen(
        [*words, "-t", ".", "-p", module.name],
        cwd=top,
        env=environment(),
        stdin=subprocess.DEVNULL,
        start_new_session=True,
        **how,
    )
    try:
        output = run.communicate(timeout=max(end - time.monotonic(), 1))[0]
    except subprocess.TimeoutExpired:
        os.killpg(run.pid, signal.SIGKILL)
        output = f"{run.communicate()[0]}test: stopped, since the time of the tests was over\n"
    return outcome_of(output, run.returncode), output


def run_module(module: pathlib.Path, end: float) -> Outcome:
    """Runs the tests of one module, and tells what failed and what was skipped."""
    try:
        outcome, output = written(module, end)
    except Exception as error:
        outcome, output = Outcome(0, 1), f"{error}"
    skipped = [line for line in output.split("\n") if " ... skipped " in line]
    told = [output] if outcome.failed else []
    # One print for each module, since several end at a time.
    print("\n".join([*told, *skipped, f"{module.relative_to(TOP)}: {outcome}"]) + "\n", end="", flush=True)
    return outcome


def run_tools() -> Outcome:
    """Runs the tests of the tools, a module on each processor, all within the seconds that they have."""
    for place in PLACES:
        if not (TOP / place).is_dir():
            print(f"{place}: skipped, there is no such folder")
    found, end = modules(), time.monotonic() + SECONDS
    with concurrent.futures.ThreadPoolExecutor(os.cpu_count()) as workers:
        return sum(workers.map(lambda module: run_module(module, end), found), Outcome(0, 0))


def tell_stale() -> None:
    """Tells which wrong bodies have to be tried again. It is a note, and no part of the outcome."""
    try:
        words = [sys.executable, str(TOP / "bin" / "mutants"), "--stale"]
        run = subprocess.run(words, capture_output=True, text=True, timeout=60)
        lines = (run.stdout or run.stderr).splitlines()
        print("note: wrong bodies beside the gate to try again:" if lines else "note: no wrong bodies to try again")
        print(*(f"  {line}" for line in lines), sep="\n")
    except (OSError, subprocess.SubprocessError) as error:
        print(f"note: {error}")


def main(words: list[str]) -> int:
    if words == ["--browser"]:
        return subprocess.run([sys.executable, "-B", str(TOP / "site" / "browse.py")]).returncode
    if words:
        print("test: it takes no words but --browser", file=sys.stderr)
        return 2
    outcome = run_gate(["rt", "ci"])
    try:
        outcome += run_tools()
    except Exception as error:
        print(f"test: the tools' tests can't be run: {error}")
        outcome += Outcome(0, 1)
    tell_stale()
    print(outcome, flush=True)
    return 1 if outcome.failed else 0
