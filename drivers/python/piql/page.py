"""What all statements of a page may use together, so that a test of the site fails where a page gets dearer."""

import collections
import contextlib
from collections.abc import Iterator

from .bounds import BoundsRose
from .connection import Connection
from .errors import ProgrammingError
from .reports import Report, Work
from .statements import Kind, Statement


class Page:
    """The statements of a page so far: how many, what they may use together, and what they used."""

    def __init__(self) -> None:
        self.statements = 0
        self.bound = self.used = Work(0, 0)
        self.operations: collections.Counter[str] = collections.Counter()

    def add(self, statement: Statement, report: Report) -> None:
        """One statement more, with its report."""
        end = report.end
        self.statements += 1
        self.bound = Work(*map(sum, zip(self.bound, end.bound)))
        self.used = Work(*map(sum, zip(self.used, end.used)))
        # A query by its name, and any other statement by its first word; a SELECT that isn't prepared has no name.
        name = "" if statement.kind is Kind.SELECT else statement.name
        self.operations[name or statement.kind.value] += end.bound.operations

    def dearest(self) -> str:
        """The operations of each query and kind of statement, those with most first."""
        return ", ".join(f"{name} {number}" for name, number in self.operations.most_common())


@contextlib.contextmanager
def page(connection: Connection, most: int, entries: int | None = None) -> Iterator[Page]:
    """A page's statements over a connection: at its end BoundsRose where they may use more than `most` operations.

    With `entries` these are held against too. What the page has used plays no part: the bounds are the same for a
    store without rows and for one with millions.

        with piql.page(connection, most=66):
            client.get("/issues")
    """
    if any(type(number) is not int or number < 0 for number in (most, 0 if entries is None else entries)):
        raise ProgrammingError("a page has a number of operations, and may have one of entries")
    found = Page()
    with connection.watched(found.add):
        yield found
    allowed = Work(most, found.bound.entries if entries is None else entries)
    if found.bound.operations > allowed.operations or found.bound.entries > allowed.entries:
        told = f"{most} operations" + ("" if entries is None else f" and {entries} entries")
        raise BoundsRose(
            f"the page may use {found.bound.operations} operations and {found.bound.entries} entries in"
            f" {found.statements} statements, where {told} are allowed: {found.dearest()}"
        )
