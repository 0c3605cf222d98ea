"""What processes take of the processors, as the system counts it in nanoseconds."""

import os
from collections.abc import Iterable
from pathlib import Path


def processor_time(process: int) -> float:
    """What the threads of a process took, in seconds."""
    threads = os.listdir(f"/proc/{process}/task")
    return sum(int(Path(f"/proc/{process}/task/{it}/schedstat").read_text().split()[0]) for it in threads) / 1e9


def begun_by(process: int) -> Iterable[int]:
    """A process, and those that it began and that are still there."""
    yield process
    for task in os.listdir(f"/proc/{process}/task"):
        for child in Path(f"/proc/{process}/task/{task}/children").read_text().split():
            yield from begun_by(int(child))


def processor_times(process: int) -> float:
    """What a process and those that it began took, in seconds."""
    return sum(map(processor_time, begun_by(process)))
