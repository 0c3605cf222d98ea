"""What comes between a call of the system and its caller: signals' handlers, and forks."""

import contextlib
import os
import signal
import weakref
from collections.abc import Iterator
from typing import Protocol


class Owned(Protocol):
    """What belongs to the process that made it alone."""

    def let_go(self) -> None:
        """Closes what a child that was forked has of it."""


OWNED: "weakref.WeakSet[Owned]" = weakref.WeakSet()


def own(it: Owned) -> None:
    """Has a child that is forked let go of something, which else would stay open for as long as the child lives."""
    OWNED.add(it)


def let_all_go() -> None:
    """Runs in a child, before anything else of it does."""
    for it in list(OWNED):
        it.let_go()


os.register_at_fork(after_in_child=let_all_go)


def is_of_call(error: OSError) -> bool:
    """Whether the call of the system that stands in the caller's `try` has raised an error.

    A signal's handler may raise the same class behind a call that was made. Its exception has come through the
    handler's own frame, and that of the call through none but the caller's.
    """
    return error.__traceback__ is not None and error.__traceback__.tb_next is None


class HeldBack:
    """Whether an interrupt came that was held back."""

    def __init__(self) -> None:
        self.is_interrupted = False


@contextlib.contextmanager
def held_back() -> Iterator[HeldBack]:
    """Has an interrupt wait for the end of the block, where it is told by `is_interrupted` and raises nothing."""
    held = HeldBack()
    before = signal.pthread_sigmask(signal.SIG_BLOCK, {signal.SIGINT})
    try:
        yield held
    finally:
        held.is_interrupted = signal.SIGINT in signal.sigpending()
        if held.is_interrupted:
            signal.sigwait({signal.SIGINT})
        signal.pthread_sigmask(signal.SIG_SETMASK, before)
