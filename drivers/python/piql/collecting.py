"""What a cursor, a pipeline and a batch have in common: the numbers of a report, and a block that sends at its end."""

from types import TracebackType
from typing import Self

from .reports import Report, Work


class Reported:
    """Whose last statement has a report, or none yet."""

    _report: Report | None = None

    @property
    def bound(self) -> Work | None:
        """What the last statement might use at most; None where there is none."""
        return None if self._report is None else self._report.end.bound

    @property
    def used(self) -> Work | None:
        """What the last statement used."""
        return None if self._report is None else self._report.end.used


class Collecting:
    """Whose `with` block collects statements, and sends them at its end."""

    def _finish(self) -> None:
        """Sends what is collected."""
        raise NotImplementedError

    def _forget(self) -> None:
        """Nothing is collected."""
        raise NotImplementedError

    def __enter__(self) -> Self:
        return self

    def __exit__(
        self, kind: type[BaseException] | None, error: BaseException | None, at: TracebackType | None
    ) -> None:
        """Sends what is collected; nothing where the block has raised something."""
        if kind is None:
            self._finish()
        else:
            self._forget()
