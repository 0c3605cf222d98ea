"""Kills at each call, syncs that fail, and images of what the disk may hold: what the next opening finds in each."""

import dataclasses
import multiprocessing
import pathlib
import random
import signal
from collections import Counter
from collections.abc import Iterable, Iterator
from dataclasses import dataclass

import recorded
from common import Pairs, answers, fail, remove, reports, sound_pairs
from images import Image, Moments
from recorded import Step
from statements import Case

STORE_FAULT = 5


@dataclass(frozen=True)
class Task:
    """A file to be opened again: how it is told of, and what makes it. A number stops a run, or an image is written."""

    case: str
    name: str
    settings: dict[str, int] = dataclasses.field(default_factory=dict)
    image: Image | None = None


@dataclass(frozen=True)
class Trial:
    """What each task needs: the program that writes, the one that opens again, the library, and the cases by name."""

    writer: pathlib.Path
    opener: pathlib.Path
    library: pathlib.Path
    folder: pathlib.Path
    cases: dict[str, Case]


def place(case: Case, told: int, found: Pairs) -> str | None:
    """Where the pairs stand to the statement at hand, the first without a report; None where they are of neither."""
    behind = case.states[min(told + 1, len(case.states) - 1)]
    if found == case.states[told]:
        return "both" if found == behind else "before"
    return "behind" if found == behind else None


def write_image(image: Image, path: pathlib.Path) -> int:
    """Writes the files of an image. It answers how many reports had been told."""
    remove(path)
    path.write_bytes(image.files["d"])
    path.with_name(path.name + "-wal").write_bytes(image.files["l"])
    return reports(image.told)


def stop_run(trial: Trial, task: Task, path: pathlib.Path) -> int:
    """Makes the run of a task, which is killed or fails. It answers how many reports it told."""
    ended, _ = recorded.run(trial.writer, trial.library, trial.cases[task.case], path, **task.settings)
    wanted = -signal.SIGKILL if "stop_at" in task.settings else STORE_FAULT
    # A sync of the end fails without harm: the next opening reads the log too.
    whole = reports(ended.output) == len(trial.cases[task.case].statements)
    if ended.errors or ended.status != wanted and not (ended.status == 0 and whole):
        fail(task.name, f"status {ended.status}, {ended.errors!r}")
    return reports(ended.output)


def opened(trial: Trial, task: Task) -> str:
    """Makes the file of a task and opens it again: where its pairs stand."""
    path = trial.folder / f"{multiprocessing.current_process().name}.db"
    told = write_image(task.image, path) if task.image else stop_run(trial, task, path)
    answers(trial.opener, path, b"")
    found = place(trial.cases[task.case], told, sound_pairs(path))
    if found is None:
        fail(task.name, f"other pairs than before and behind statement {told + 1} of {task.case}, in {path}")
    remove(path)
    return found


_trial: Trial


def _begin(trial: Trial) -> None:
    global _trial
    _trial = trial


def _opened(task: Task) -> str:
    try:
        return opened(_trial, task)
    except SystemExit as end:
        # The first process of a pool that ends takes the task with it: so what was found goes back as an error.
        raise RuntimeError(f"{task.name}: {end}") from end


def tried(trial: Trial, tasks: Iterable[Task], processes: int) -> Counter[str]:
    """Opens the file of each task again, and counts where its pairs stand. A strange one ends the trial."""
    counts: Counter[str] = Counter()
    with multiprocessing.Pool(processes, _begin, (trial,)) as pool:
        for found in pool.imap_unordered(_opened, tasks, chunksize=4):
            counts[found] += 1
    return counts


def kills(case: Case, steps: list[Step]) -> Iterator[Task]:
    """A kill before each call of a run."""
    for number in range(1, len(steps) + 1):
        yield Task(case.name, f"{case.name}, killed before call {number}", {"stop_at": number})


def failed_syncs(case: Case, steps: list[Step]) -> Iterator[Task]:
    """Each sync of a run fails in turn."""
    for number in range(1, sum(step.kind == "s" for step in steps) + 1):
        yield Task(case.name, f"{case.name}, sync {number} fails", {"fail_sync": number})


def lost(case: Case, steps: list[Step], each: int, chance: random.Random) -> Iterator[Task]:
    """Behind each step of a run so many images that have lost a part of what wasn't synced."""
    moments = Moments(case.file.read_bytes(), chance)
    for number, step in enumerate(steps, 1):
        moments.pass_step(step)
        for image in range(each if moments.has_losses() else 0):
            yield Task(case.name, f"{case.name}, image {image} behind call {number}", image=moments.image())


def lost_by_failures(trial: Trial, case: Case, steps: list[Step], each: int, chance: random.Random) -> Iterator[Task]:
    """The same at the end of runs of which each sync fails in turn."""
    for number in range(1, sum(step.kind == "s" for step in steps) + 1):
        _, failed = recorded.run(trial.writer, trial.library, case, trial.folder / "failed.db", fail_sync=number)
        for image in range(each):
            moments = Moments(case.file.read_bytes(), chance)
            for step in failed:
                moments.pass_step(step)
            yield Task(case.name, f"{case.name}, image {image} of failed sync {number}", image=moments.image())
