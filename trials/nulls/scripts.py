"""Scripts of made cases, each with the reports that it has to have."""

import itertools
from collections.abc import Iterator, Mapping, Sequence
from dataclasses import dataclass, field

from made import Asked, Family, group_rows, row_sets
from queries import Page, Query, Row
from values import Value, written

# A store has at most 256 definitions, so a script prepares so many queries at most.
QUERIES = 240
# The groups of rows in a script, and over how many of them each query is run.
GROUPS = 36
RUNS = 3
# The second table has other rows in a group than the first one.
APART = 357

# The rows of one group, by the names of their tables.
Group = Mapping[str, Sequence[Row]]


@dataclass(frozen=True)
class Wanted:
    """What the report of a statement has to have: its rows, and its end without number, bound and used."""

    end: str
    rows: list[str] = field(default_factory=list)


@dataclass
class Script:
    """Statements, the reports that are wanted of them, and counts of what is asked."""

    statements: list[str] = field(default_factory=list)
    wanted: list[Wanted] = field(default_factory=list)
    definitions: int = 0
    queries: int = 0
    refused: int = 0
    runs: int = 0
    pages: int = 0

    def text(self) -> bytes:
        return "\n".join(self.statements).encode()

    def add(self, statement: str, end: str, rows: Sequence[str] = ()) -> None:
        self.statements.append(statement + ";")
        self.wanted.append(Wanted(end, list(rows)))

    def define(self, statement: str) -> int:
        """The number of the definition."""
        self.add(statement, "ok")
        self.definitions += 1
        return self.definitions

    def prepare(self, asked: Asked) -> int | None:
        """The number of the query's definition. None where it has no bound."""
        if asked.query.is_bounded():
            self.queries += 1
            return self.define(f"PREPARE q{self.definitions + 1} AS {asked.query.text()}")
        self.refused += 1
        last = asked.query.relations[-1].alias
        self.add(f"PREPARE none AS {asked.query.text()}", f"refused E304 {last}")
        return None

    def run(self, definition: int, query: Query, parameters: Sequence[Value], rows: Group) -> None:
        """Runs a query page by page to the end, each behind the cursor that the page before has to print."""
        call = f"RUN q{definition} ({', '.join(map(written, parameters))})"
        after = ""
        for page in query.pages(definition, query.answer(rows, parameters)):
            self.add(call + after, page_end(page), page.rows)
            self.pages += 1
            after = f" AFTER '{page.cursor}'"
        self.runs += 1


def page_end(page: Page) -> str:
    return f"ok rows {len(page.rows)}" + (f" next {page.cursor}" if page.cursor else "")


def groups_of(family: Family, number: int) -> list[Group]:
    """The groups of the script with this number, each with its rows of both tables."""
    sets, found = row_sets(family.kinds), []
    for group in range(number * GROUPS, (number + 1) * GROUPS):
        kept, free = sets[group % len(sets)], sets[(group + APART) % len(sets)]
        found.append({"kept": group_rows(group, kept), "free": group_rows(group, free)})
    return found


def put_rows(script: Script, family: Family, group: Group, changed: bool) -> None:
    """Puts rows in as they have to be, or with other values that an UPDATE changes then."""
    for name, row in ((name, row) for name, own in group.items() for row in own):
        other = (family.ends("a")[0], family.ends("b")[1]) if row["g"] % 2 else (None, None)
        first = other if changed else (row["a"], row["b"])
        script.add(f"INSERT INTO {name} VALUES ({', '.join(map(written, (row['g'], row['id'], *first)))})", "ok")
        if changed:
            sets = f"b = {written(row['b'])}, a = {written(row['a'])}"
            script.add(f"UPDATE {name} SET {sets} WHERE id = {row['id']} AND g = {row['g']}", "ok")


def made_script(family: Family, number: int, part: Sequence[Asked]) -> Script:
    """One script. Its rows come before the queries, or behind them, or they come and are changed behind them."""
    script, groups = Script(), groups_of(family, number)
    for table in family.tables():
        script.define(table.definition())
    if number % 3 == 0:
        for group in groups:
            put_rows(script, family, group, False)
    definitions = [script.prepare(asked) for asked in part]
    if number % 3 > 0:
        for group in groups:
            put_rows(script, family, group, number % 3 == 2)
    for place, (definition, asked) in enumerate(zip(definitions, part)):
        for turn in range(RUNS) if definition else ():
            at = (place * RUNS + turn) % GROUPS
            script.run(definition, asked.query, (number * GROUPS + at, *asked.values), groups[at])
    return script


def parts(asked: Iterator[Asked]) -> Iterator[list[Asked]]:
    """All queries in lists of at most so many as a script prepares."""
    while part := list(itertools.islice(asked, QUERIES)):
        yield part


def scripts(family: Family, every: int) -> Iterator[Script]:
    """The scripts of a family, with each so many-th of its queries."""
    for number, part in enumerate(parts(itertools.islice(family.queries(), 0, None, every))):
        yield made_script(family, number, part)
