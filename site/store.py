"""What the microblog asks of its store, and what each request used of it."""

from collections.abc import Iterable, Sequence
from typing import NamedTuple

from piql import Connection, Work


class Asked(NamedTuple):
    """A query or a write of a request: its name, its bound and what it used."""

    name: str
    bound: Work
    used: Work


class Page(NamedTuple):
    """A page of rows, and the cursor of the next one."""

    rows: list[tuple]  # type: ignore[type-arg]
    next_page: str | None


class Store:
    """The store during one request."""

    def __init__(self, connection: Connection) -> None:
        self.connection = connection
        self.asked: list[Asked] = []

    def page(self, query: str, *values: object, after: str | None = None) -> Page:
        """A page of a prepared query."""
        places = ", ".join("?" * len(values))
        cursor = self.connection.execute(f"RUN {query} ({places})", values, after=after)
        assert cursor.bound is not None and cursor.used is not None
        self.asked.append(Asked(query, cursor.bound, cursor.used))
        return Page(cursor.fetchall(), cursor.next_page)

    def pages(self, query: str, lists: Iterable[Sequence[object]]) -> list[Page]:
        """The first page of a prepared query for each list of values; all are asked together."""
        with self.connection.pipeline() as pipeline:
            results = [pipeline.run(query, *values) for values in lists]
        self.asked += [Asked(query, it.bound, it.used) for it in results]
        return [Page(it.rows, it.next_page) for it in results]

    def row(self, query: str, *values: object) -> tuple | None:  # type: ignore[type-arg]
        """The row of a query that looks up one."""
        rows = self.page(query, *values).rows
        return rows[0] if rows else None

    def write(self, statement: str, *values: object) -> None:
        """One write. A refusal is the caller's."""
        self.connection.execute(statement, values)

    def totals(self) -> tuple[Work, Work]:
        """The bounds of the request together, and what it used."""
        bound = Work(sum(it.bound.operations for it in self.asked), sum(it.bound.entries for it in self.asked))
        used = Work(sum(it.used.operations for it in self.asked), sum(it.used.entries for it in self.asked))
        return bound, used
