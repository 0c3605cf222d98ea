"""Listed queries: those that both are refused alike, and stores over which a PREPARE alone is refused."""

from collections.abc import Callable
from typing import NamedTuple

from piql.hosts import MemoryStore

TABLE = "CREATE TABLE m (id INT, v INT, w INT, PRIMARY KEY (id));\nINSERT INTO m VALUES (1, 7, 2);\n"
BY_KEY, BY_V = "SELECT m.v FROM m WHERE m.id = 1", "SELECT m.id FROM m ORDER BY m.v LIMIT 5"
LIMITED = """\
CREATE TABLE u (id INT, name TEXT(9), PRIMARY KEY (id));
CREATE TABLE s (a INT, b INT, PRIMARY KEY (a, b), CARDINALITY LIMIT 1000 (a));
"""
ONE, UNBOUNDED = "SELECT u.name FROM u WHERE u.id = 1", "SELECT u.id FROM u WHERE u.name"
# As many definitions as there may be, the table's among them; and as many indexes of a table.
DEFINITIONS, INDEXES = 256, 16


class Crowded(MemoryStore):
    """A store that counts as many pairs as it may in each range."""

    def count(self, low: bytes, high: bytes, cap: int) -> int:
        return cap


class Special(NamedTuple):
    """A store, the name of its PREPAREs, and of each query why it is refused by PREPARE and what a SELECT is told."""

    script: str
    name: str
    queries: tuple[tuple[str, str, str], ...]
    make: Callable[[], MemoryStore] = MemoryStore


def named_queries(number: int) -> str:
    return "".join(f"PREPARE q{i} AS {BY_KEY};\n" for i in range(number))


def wide_table() -> str:
    """A table of which each column but the key has an index."""
    columns = "".join(f"c{i} INT, " for i in range(INDEXES + 1))
    made = "".join(f"PREPARE q{i} AS SELECT t.id FROM t ORDER BY t.c{i} LIMIT 5;\n" for i in range(INDEXES))
    return f"CREATE TABLE t (id INT, {columns}PRIMARY KEY (id));\n{made}"


# Queries that are refused alike, each for one thing.
REFUSED = (
    # 39 letters are before the mark, and 15 of the head of a PREPARE.
    (f"{ONE} AND", "E104 54", "E104 39"),
    ("SELECT u.name FROM " + ", ".join(f"u AS u{i}" for i in range(7)), "E206 relations"),
    (ONE + " AND u.id = 1" * 16, "E206 predicates"),
    (ONE + " ORDER BY u.id, u.id, u.id, u.id, u.id", "E206 order"),
    (f"SELECT {', '.join(['u.id'] * 193)} FROM u WHERE u.id = 1", "E206 selected"),
    (f"{ONE} LIMIT 0", "E206 stop"),
    (f"{ONE} PAGINATE 1001", "E206 stop"),
    ("SELECT x.name FROM x WHERE x.id = 1", "E202 x"),
    ("SELECT u.name FROM u, u", "E301 u"),
    ("SELECT x.name FROM u", "E301 x"),
    ("SELECT u.x FROM u", "E203 x"),
    ("SELECT b.a FROM s AS a, s AS b WHERE a = 1", "E203 a"),
    (f"{ONE} ORDER BY u.id, u.id", "E204 id"),
    (f"{ONE} AND u.name = 1", "E302 2"),
    (f"{ONE} AND u.name < '{'x' * 1001}'", "E302 2"),
    (f"{ONE} AND u.name = [2]", "E303"),
    (f"{UNBOUNDED} = 'x'", "E304 u"),
    ("SELECT a.b FROM s AS a, s AS b WHERE a.a = 1 AND b.a = a.b", "E305 1001 1001000"),
)


def with_select(case: tuple[str, ...]) -> tuple[str, str, str]:
    """A query with what a PREPARE and a SELECT are told, which is mostly the same."""
    text, prepare, *select = case
    return text, prepare, select[0] if select else prepare


SPECIAL = (
    Special(LIMITED, "one", tuple(map(with_select, REFUSED))),
    Special(LIMITED, "one", ((f"{ONE} AND u.name = [1]", "", "E303"), (f"{UNBOUNDED} = [1]", "E304 u", "E303"))),
    Special(
        TABLE + named_queries(DEFINITIONS - 1),
        "one_more",
        ((BY_KEY, "E206 definitions", "[(7,)]"), (BY_V, "E206 definitions", "E406 m")),
    ),
    Special(TABLE, "m", ((BY_KEY, "E201 m", "[(7,)]"), (BY_V, "E201 m", "E406 m"))),
    Special(TABLE, "by_v", ((BY_V, "E207 m", "E406 m"),), Crowded),
    Special(
        wide_table(),
        "of_last",
        (
            (f"SELECT t.id FROM t ORDER BY t.c{INDEXES} LIMIT 5", "E206 indexes", "E206 indexes"),
            ("SELECT t.id FROM t ORDER BY t.c0 LIMIT 5", "", "[]"),
        ),
    ),
)
