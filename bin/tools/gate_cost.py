"""What a run of the gate costs: processor seconds by crate and kind, and its longest chain of crates."""

import collections
import dataclasses
import os
import re
import subprocess
import sys
import time

from tools import processes
from tools.processes import Process
from tools.repository import TOP, Repository

KINDS = ("proof", "tests", "edits", "builds", "runs")
OF_CRATE = re.compile(r"/crates/(\w+)")
OF_RUN = re.compile(r"/rt-run-[^/]*/bin/(\w+?)(?:_tests)?$")
EVERY = 1.0


@dataclasses.dataclass(frozen=True)
class Job:
    """What one process of the gate works on: a crate, and what it does there."""

    crate: str
    kind: str


def job_of(process: Process) -> Job | None:
    """The job of a process that the gate started, or None for the gate's own."""
    words = process.words
    if run := next((found for word in words if (found := OF_RUN.search(word))), None):
        return Job(run[1], "runs")
    if not words or not os.path.basename(words[0]).startswith("rattle"):
        return None
    if "--crate-name" not in words:
        found = OF_CRATE.search(process.folder)
        return Job(found[1] if found else "?", "builds")
    crate = words[words.index("--crate-name") + 1]
    if "/rt-edit-" in process.folder:
        return Job(crate, "edits")
    if "--test" in words:
        return Job(crate, "tests")
    return Job(crate, "builds" if "--crate-checked" in words else "proof")


class Sampler:
    """Looks at a gate's processes again and again. A process counts with what it had when it was last seen.

    The gate itself counts all that it has waited for, so the whole is told also of what ended between two looks.
    """

    def __init__(self, gate: int) -> None:
        self.gate = gate
        self.jobs: dict[tuple[int, int], tuple[Job, float]] = {}
        self.own = 0.0
        self.whole = 0.0

    def look(self) -> bool:
        """Takes a sample. False where the gate has ended."""
        found = processes.all_of()
        if self.gate not in found or not found[self.gate].words:
            return False
        children = processes.children_of(found)
        self.own = 0.0
        self.walk(found[self.gate], children)
        self.whole = max(self.whole, processes.seconds_of(found[self.gate], children))
        return True

    def walk(self, process: Process, children: dict[int, list[Process]]) -> None:
        job = job_of(process)
        if job is None:
            self.own += process.own
            for child in children.get(process.number, ()):
                self.walk(child, children)
            return
        last = self.jobs.get(process.key, (job, 0.0))[1]
        self.jobs[process.key] = job, max(last, processes.seconds_of(process, children))

    def seconds(self) -> dict[Job, float]:
        """The seconds of each job, over all its processes."""
        found: dict[Job, float] = collections.defaultdict(float)
        for job, seconds in self.jobs.values():
            found[job] += seconds
        return found


def longest_chain(repository: Repository, seconds: dict[Job, float]) -> tuple[float, list[str]]:
    """The crates of which each waits for the proof of the one before it, with what is done at the last one."""

    def of(crate: str, *kinds: str) -> float:
        return sum(seconds.get(Job(crate, kind), 0.0) for kind in kinds)

    chains: dict[str, tuple[float, list[str]]] = {}
    for crate in sorted(repository.uses, key=lambda name: len(repository.below(name))):
        before = max((chains[low] for low in repository.own_uses(crate)), default=(0.0, []))
        chains[crate] = before[0] + of(crate, "proof"), [*before[1], crate]
    ends = [(chain[0] + of(crate, "tests", "edits", "builds"), chain[1]) for crate, chain in chains.items()]
    return max(ends)


def table(seconds: dict[Job, float]) -> list[str]:
    """The seconds by crate, the dearest first, with a last line of sums."""
    by_crate: dict[str, dict[str, float]] = collections.defaultdict(dict)
    for job, cost in seconds.items():
        if cost:
            by_crate[job.crate][job.kind] = cost
    lines = [f"{'crate':18}" + "".join(f"{kind:>9}" for kind in (*KINDS, "all"))]
    for crate in sorted(by_crate, key=lambda name: -sum(by_crate[name].values())):
        costs = [by_crate[crate].get(kind, 0.0) for kind in KINDS]
        lines.append(f"{crate:18}" + "".join(f"{cost:9.1f}" if cost else f"{'':9}" for cost in (*costs, sum(costs))))
    sums = [sum(costs.get(kind, 0.0) for costs in by_crate.values()) for kind in KINDS]
    return [*lines, f"{'all':18}" + "".join(f"{cost:9.1f}" for cost in (*sums, sum(sums)))]


def running_gate() -> int | None:
    """The number of the gate that runs over this checkout."""
    for number, process in processes.all_of().items():
        names = tuple(os.path.basename(word) for word in process.words[-2:])
        if names == ("rt", "ci") and process.folder == str(TOP):
            return number
    return None


def tell(sampler: Sampler, passed: float) -> None:
    seconds = sampler.seconds()
    print(*table(seconds), sep="\n")
    chain, crates = longest_chain(Repository(), seconds)
    unseen = sampler.whole - sampler.own - sum(seconds.values())
    print(f"the gate's own {sampler.own:.0f}; of processes that weren't seen to their end {unseen:.0f}")
    print(f"the whole gate {sampler.whole:.0f}; by the clock, as long as it was looked at, {passed:.0f}")
    print(f"longest chain {chain:.0f}: {' > '.join(crates)}")


def main(words: list[str]) -> int:
    if words not in ([], ["--attach"]):
        print("gate-cost: no word or --attach", file=sys.stderr)
        return 2
    started = None if words else subprocess.Popen(["rt", "ci"], cwd=TOP, stdout=sys.stderr)
    gate = started.pid if started else running_gate()
    if gate is None:
        print("gate-cost: no gate runs over this checkout", file=sys.stderr)
        return 2
    sampler, begin = Sampler(gate), time.monotonic()
    # A process that ended stays until it is waited for, then without words.
    while sampler.look() and (started is None or started.poll() is None):
        time.sleep(EVERY)
    tell(sampler, time.monotonic() - begin)
    return started.wait() if started else 0
