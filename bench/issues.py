"""A list page of an issue tracker: 20 issues with their labels and numbers of comments, by 46 statements.

The project, the user, the milestones, the open and the closed issues' numbers and the newest issues come first; then,
of each of the 20 issues, its labels and the number of its comments. sqlite3 has the same rows, and numbers in a table.
"""

import sqlite3
from collections.abc import Callable
from pathlib import Path
from typing import Any, NamedTuple

import piql

PROJECTS, ISSUES, ON_PAGE, LABELS, COMMENTS = 3, 200, 20, 3, 4
STATEMENTS = 6 + 2 * ON_PAGE
SCHEMA = f"""
CREATE TABLE projects (id INT, title TEXT(40), PRIMARY KEY (id));
CREATE TABLE users (name TEXT(20), shown TEXT(40), PRIMARY KEY (name));
CREATE TABLE milestones (project INT, number INT, title TEXT(40), PRIMARY KEY (project, number),
  CARDINALITY LIMIT 20 (project), FOREIGN KEY (project) REFERENCES projects);
CREATE TABLE issues (project INT, number INT, author TEXT(20), title TEXT(80), is_open BOOL,
  PRIMARY KEY (project, number), FOREIGN KEY (project) REFERENCES projects, FOREIGN KEY (author) REFERENCES users);
CREATE TABLE labels (project INT, issue INT, label TEXT(20), PRIMARY KEY (project, issue, label),
  CARDINALITY LIMIT 8 (project, issue));
CREATE TABLE comments (project INT, issue INT, number INT, line TEXT(80), PRIMARY KEY (project, issue, number));
CREATE COUNTER issues_of OF issues (project, is_open);
CREATE COUNTER comments_of OF comments (project, issue);
PREPARE project AS SELECT p.title FROM projects AS p WHERE p.id = [1];
PREPARE person AS SELECT u.shown FROM users AS u WHERE u.name = [1];
PREPARE milestones_of AS SELECT m.number, m.title FROM milestones AS m WHERE m.project = [1];
PREPARE newest AS SELECT i.number, i.title, i.author, i.is_open FROM issues AS i WHERE i.project = [1]
  ORDER BY i.number DESC PAGINATE {ON_PAGE};
PREPARE labels_of AS SELECT l.label FROM labels AS l WHERE l.project = [1] AND l.issue = [2];
"""
FIRST = (
    ("RUN project (?)", (1,)),
    ("RUN person (?)", ("ann",)),
    ("RUN milestones_of (?)", (1,)),
    ("READ issues_of (?, TRUE)", (1,)),
    ("READ issues_of (?, FALSE)", (1,)),
    ("RUN newest (?)", (1,)),
)
OF_ISSUE = ("RUN labels_of (?, ?)", "READ comments_of (?, ?)")
SCHEMA_THERE = """
CREATE TABLE projects (id INTEGER PRIMARY KEY, title TEXT);
CREATE TABLE users (name TEXT PRIMARY KEY, shown TEXT) WITHOUT ROWID;
CREATE TABLE milestones (project INT, number INT, title TEXT, PRIMARY KEY (project, number)) WITHOUT ROWID;
CREATE TABLE issues (project INT, number INT, author TEXT, title TEXT, is_open INT, PRIMARY KEY (project, number))
  WITHOUT ROWID;
CREATE TABLE labels (project INT, issue INT, label TEXT, PRIMARY KEY (project, issue, label)) WITHOUT ROWID;
CREATE TABLE issues_of (project INT, is_open INT, rows INT, PRIMARY KEY (project, is_open)) WITHOUT ROWID;
CREATE TABLE comments_of (project INT, issue INT, rows INT, PRIMARY KEY (project, issue)) WITHOUT ROWID;
"""
FIRST_THERE = (
    ("SELECT title FROM projects WHERE id = ?", (1,)),
    ("SELECT shown FROM users WHERE name = ?", ("ann",)),
    ("SELECT number, title FROM milestones WHERE project = ?", (1,)),
    ("SELECT rows FROM issues_of WHERE project = ? AND is_open = 1", (1,)),
    ("SELECT rows FROM issues_of WHERE project = ? AND is_open = 0", (1,)),
    (f"SELECT number, title, author, is_open FROM issues WHERE project = ? ORDER BY number DESC LIMIT {ON_PAGE}", (1,)),
)
OF_ISSUE_THERE = (
    "SELECT label FROM labels WHERE project = ? AND issue = ?",
    "SELECT rows FROM comments_of WHERE project = ? AND issue = ?",
)
Answers = list[list[tuple[Any, ...]]]


class Rows(NamedTuple):
    """The rows of a table."""

    table: str
    rows: list[tuple[object, ...]]


def filling() -> list[Rows]:
    """The rows of each table, in an order in which each refers to one that is there."""
    projects = range(1, PROJECTS + 1)
    issues = [(project, number) for project in projects for number in range(1, ISSUES + 1)]
    return [
        Rows("projects", [(it, f"project {it}") for it in projects]),
        Rows("users", [("ann", "Ann"), ("bob", "Bob")]),
        Rows("milestones", [(it, number, f"milestone {number}") for it in projects for number in range(5)]),
        Rows("issues", [(*it, "ann" if it[1] % 2 else "bob", f"issue {it[1]}", it[1] % 3 > 0) for it in issues]),
        Rows("labels", [(*it, f"label {number}") for it in issues for number in range(LABELS)]),
        Rows("comments", [(*it, number, "a comment") for it in issues for number in range(COMMENTS)]),
    ]


def fill_here(connection: piql.Connection) -> None:
    """Makes the tables, the queries and the rows."""
    connection.cursor().executescript(SCHEMA)
    for table, rows in filling():
        places = ", ".join("?" * len(rows[0]))
        for begin in range(0, len(rows), 1000):
            with connection.pipeline() as pipeline:
                for row in rows[begin : begin + 1000]:
                    pipeline.execute(f"INSERT INTO {table} VALUES ({places})", row)


def fill_there(file: sqlite3.Connection) -> None:
    """The same for sqlite3."""
    file.executescript(SCHEMA_THERE)
    for table, rows in filling():
        if table != "comments":
            file.executemany(f"INSERT INTO {table} VALUES ({', '.join('?' * len(rows[0]))})", rows)
    file.execute("INSERT INTO issues_of SELECT project, is_open, count(*) FROM issues GROUP BY project, is_open")
    file.execute("INSERT INTO comments_of SELECT project, number, ? FROM issues", (COMMENTS,))
    file.commit()


def one_by_one(connection: piql.Connection) -> Answers:
    """The page, each of whose statements waits for its answer."""
    cursor = connection.cursor()
    found = [cursor.execute(text, values).fetchall() for text, values in FIRST]
    return found + [cursor.execute(text, (1, issue[0])).fetchall() for issue in found[-1] for text in OF_ISSUE]


def together(connection: piql.Connection) -> Answers:
    """The page by two pipelines: the second one asks for what belongs to the issues that the first has found."""
    with connection.pipeline() as pipeline:
        first = [pipeline.execute(text, values) for text, values in FIRST]
    with connection.pipeline() as pipeline:
        second = [pipeline.execute(text, (1, issue[0])) for issue in first[-1].rows for text in OF_ISSUE]
    return [it.rows for it in first + second]


def there(file: sqlite3.Connection) -> Answers:
    """The page by sqlite3."""
    cursor = file.cursor()
    found = [cursor.execute(text, values).fetchall() for text, values in FIRST_THERE]
    return found + [cursor.execute(text, (1, issue[0])).fetchall() for issue in found[-1] for text in OF_ISSUE_THERE]


def opened_there(path: Path) -> sqlite3.Connection:
    """A file of sqlite3 with the page's rows."""
    file = sqlite3.connect(path)
    file.execute("PRAGMA journal_mode = wal")
    fill_there(file)
    return file


def round_trips(connection: piql.Connection, page: Callable[[piql.Connection], Answers]) -> tuple[int, int]:
    """How many statements a page sends, and how often it waits for answers."""
    statements, trips = connection.statements, connection.round_trips
    page(connection)
    return connection.statements - statements, connection.round_trips - trips
