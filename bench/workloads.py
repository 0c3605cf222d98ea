"""The workloads: each is a script for the engine, and the same statements for SQLite.

A workload is written into a folder as ground.piql and script.piql, and the same two for SQLite with the ending sql. The
ground is what the timed statements stand on, and the script is the ground with them behind it. Where the timed
statements are runs of one query, query.sql has it with a parameter, values a value a line for each of them, and none
nothing.

SQLite has no limits on how many rows share values, so its tables have an index in place of each limit, and it checks
less than the engine does.
"""

import pathlib
from collections.abc import Iterator
from dataclasses import dataclass

# An odd factor and a prime: their products fall all over the range.
FACTORS = (7_919, 104_729)
PRIME = 100_003


@dataclass(frozen=True)
class Workload:
    """What the engine and SQLite are given to do. Of the statements all are ok."""

    text: str
    tables: list[str]
    sql_tables: list[str]
    # Statements that both are given: what the timed ones stand on, and the timed ones.
    ground: list[str]
    timed: list[str]
    # The timed statements of SQLite, where they are others.
    sql_timed: list[str] | None = None
    # The query of the timed statements with a parameter, and its values, where they are runs of one.
    query: str | None = None
    values: list[str] | None = None

    def write(self, folder: pathlib.Path) -> None:
        """Writes its files into the folder."""
        if self.query is not None and self.values is not None:
            (folder / "query.sql").write_text(self.query)
            (folder / "values").write_text("\n".join(self.values) + "\n")
            (folder / "none").write_text("")
        grounds = {"piql": self.tables + self.ground, "sql": self.sql_tables + self.ground}
        timed = {"piql": self.timed, "sql": self.timed if self.sql_timed is None else self.sql_timed}
        for ending, ground in grounds.items():
            (folder / f"ground.{ending}").write_text("\n".join(ground) + "\n")
            (folder / f"script.{ending}").write_text("\n".join(ground + timed[ending]) + "\n")


def scattered(number: int, factor: int) -> int:
    """The number's place among those below the prime, in no order."""
    return number * factor % PRIME


def inserts(count: int) -> Workload:
    """INSERTs into a table with two limits and a foreign key, 20 rows for each of its parents."""
    parents = max(count // 20, 1)
    rows = []
    for user in range(parents):
        for other in range(count // parents):
            target = (user * 31 + other * 17) % parents
            rows.append(f"INSERT INTO subs VALUES ('user{user:05}', 'user{target:05}', {other});")
    return Workload(
        f"{len(rows):,} INSERTs into a table with two limits and a foreign key",
        [
            "CREATE TABLE users (name TEXT(20), PRIMARY KEY (name));",
            "CREATE TABLE subs (owner TEXT(20), target TEXT(20), since INT, PRIMARY KEY (owner, target, since),"
            " CARDINALITY LIMIT 100 (owner), CARDINALITY LIMIT 100 (target), FOREIGN KEY (target) REFERENCES users);",
        ],
        [
            "PRAGMA foreign_keys = ON;",
            "CREATE TABLE users (name TEXT, PRIMARY KEY (name)) WITHOUT ROWID;",
            "CREATE TABLE subs (owner TEXT, target TEXT, since INT, PRIMARY KEY (owner, target, since),"
            " FOREIGN KEY (target) REFERENCES users) WITHOUT ROWID;",
            "CREATE INDEX subs_target ON subs (target);",
        ],
        [f"INSERT INTO users VALUES ('user{user:05}');" for user in range(parents)],
        rows,
    )


def indexes(count: int) -> Workload:
    """INSERTs into a table with two indexes, whose values come in no order."""
    return Workload(
        f"{count:,} INSERTs into a table with two indexes, values in no order",
        [
            "CREATE TABLE t (id INT, a INT, b INT, PRIMARY KEY (id),"
            " CARDINALITY LIMIT 1000 (a), CARDINALITY LIMIT 1000 (b));"
        ],
        [
            "CREATE TABLE t (id INTEGER PRIMARY KEY, a INT, b INT);",
            "CREATE INDEX t_a ON t (a);",
            "CREATE INDEX t_b ON t (b);",
        ],
        [],
        [
            f"INSERT INTO t VALUES ({row}, {scattered(row, FACTORS[0])}, {scattered(row, FACTORS[1])});"
            for row in range(count)
        ],
    )


def runs(count: int) -> Workload:
    """A query by the key, for each row of a table."""
    keys = [scattered(row, FACTORS[0]) % count for row in range(count)]
    query = "SELECT x.v FROM m AS x WHERE x.id = {};"
    return Workload(
        f"{count:,} RUNs of a query by its key",
        [
            "CREATE TABLE m (id INT, v INT, PRIMARY KEY (id));",
            "PREPARE q AS SELECT x.v FROM m AS x WHERE x.id = [1];",
        ],
        ["CREATE TABLE m (id INTEGER PRIMARY KEY, v INT);"],
        [f"INSERT INTO m VALUES ({row}, {scattered(row, FACTORS[0])});" for row in range(count)],
        [f"RUN q ({key});" for key in keys],
        [query.format(key) for key in keys],
        query.format("?"),
        [str(key) for key in keys],
    )


# The tables and the query of the generated script, as docs/FORMATS.md has them.
SITE = [
    "CREATE TABLE users (name TEXT(16), city TEXT(16), PRIMARY KEY (name));",
    "CREATE TABLE subs (owner TEXT(16), target TEXT(16), approved BOOL, PRIMARY KEY (owner, target), CARDINALITY LIMIT"
    " 100 (owner), FOREIGN KEY (owner) REFERENCES users, FOREIGN KEY (target) REFERENCES users);",
    "CREATE TABLE thoughts (owner TEXT(16), ts INT, body TEXT(140), PRIMARY KEY (owner, ts), FOREIGN KEY (owner)"
    " REFERENCES users);",
    "PREPARE home AS SELECT t.owner, t.ts, t.body FROM subs s, thoughts t WHERE s.owner = [1: uname] AND s.approved ="
    " true AND t.owner = s.target ORDER BY t.ts DESC LIMIT 10;",
]
SQL_SITE = [
    "PRAGMA foreign_keys = ON;",
    "CREATE TABLE users (name TEXT, city TEXT, PRIMARY KEY (name)) WITHOUT ROWID;",
    "CREATE TABLE subs (owner TEXT, target TEXT, approved BOOL, PRIMARY KEY (owner, target),"
    " FOREIGN KEY (owner) REFERENCES users, FOREIGN KEY (target) REFERENCES users) WITHOUT ROWID;",
    "CREATE INDEX subs_target ON subs (target);",
    "CREATE TABLE thoughts (owner TEXT, ts INT, body TEXT, PRIMARY KEY (owner, ts),"
    " FOREIGN KEY (owner) REFERENCES users) WITHOUT ROWID;",
    "CREATE INDEX thoughts_ts ON thoughts (owner, ts DESC);",
]


def name(user: int) -> str:
    return f"u{user:05}"


def site_rows(users: int) -> Iterator[str]:
    """The INSERTs of the generated script."""
    for user in range(users):
        yield f"INSERT INTO users VALUES ('{name(user)}', 'c{user % 10}');"
    for user in range(users):
        for other in range(1, min(5, users - 1) + 1):
            approved = "false" if other == 3 else "true"
            yield f"INSERT INTO subs VALUES ('{name(user)}', '{name((user + other) % users)}', {approved});"
    for turn in range(5):
        for user in range(users):
            yield f"INSERT INTO thoughts VALUES ('{name(user)}', {turn * users + user}, 'b');"


SITE_QUERY = (
    "SELECT t.owner, t.ts, t.body FROM subs s, thoughts t WHERE s.owner = {} AND s.approved = true"
    " AND t.owner = s.target ORDER BY t.ts DESC LIMIT 10;"
)


def site_runs(users: int) -> tuple[list[str], list[str]]:
    """Its RUNs, and the same for SQLite."""
    names = [name(user) for user in range(users)]
    return [f"RUN home ('{user}');" for user in names], [SITE_QUERY.format(f"'{user}'") for user in names]


def fill(count: int) -> Workload:
    """The generated script of `fill`, whole."""
    rows = list(site_rows(count))
    asked, selects = site_runs(count)
    text = f"the {len(rows) + len(asked):,} statements of fill {count:,} behind its definitions"
    return Workload(text, SITE, SQL_SITE, [], rows + asked, rows + selects)


def feed(count: int) -> Workload:
    """The RUNs of the same script alone: a page of ten, of whom a user follows."""
    asked, selects = site_runs(count)
    text, values = f"{count:,} RUNs of a follower's feed", [name(user) for user in range(count)]
    return Workload(text, SITE, SQL_SITE, list(site_rows(count)), asked, selects, SITE_QUERY.format("?"), values)


# Of the columns behind the key one half are numbers and the other one texts.
WIDE_PAIRS = 13
WIDE_ROWS = 60
WIDE_RUNS = 20


def wide_row(group: int, row: int) -> str:
    """The INSERT of a row of 28 columns."""
    number = group * WIDE_ROWS + row
    cells = [f"{scattered(number + at, FACTORS[0])}, 'text {number} of {at:02}'" for at in range(WIDE_PAIRS)]
    return f"INSERT INTO wide VALUES ({group}, {row}, {', '.join(cells)});"


def wide(count: int) -> Workload:
    """Pages of 50 rows of 28 columns, of which four are selected."""
    groups = max(count // WIDE_RUNS, 1)
    rows = [wide_row(group, row) for group in range(groups) for row in range(WIDE_ROWS)]
    columns = ", ".join(f"n{at:02} INT, t{at:02} TEXT{{size}}" for at in range(WIDE_PAIRS))
    table = f"CREATE TABLE wide (grp INT, id INT, {columns}, PRIMARY KEY (grp, id))"
    query = "SELECT x.id, x.n06, x.t01, x.t12 FROM wide AS x WHERE x.grp = {} ORDER BY x.id LIMIT 50;"
    keys = [str(number % groups) for number in range(count)]
    return Workload(
        f"{count:,} RUNs of a page of 50 rows of 28 columns, of which 4 are selected",
        [f"{table.format(size='(20)')};", f"PREPARE page AS {query.format('[1]')}"],
        [f"{table.format(size='')} WITHOUT ROWID;"],
        rows,
        [f"RUN page ({key});" for key in keys],
        [query.format(key) for key in keys],
        query.format("?"),
        keys,
    )


WORKLOADS = {"fill": fill, "inserts": inserts, "indexes": indexes, "runs": runs, "feed": feed, "wide": wide}
