"""Statements that are refused for a NULL where none can be, and those beside them that are not."""

from collections.abc import Sequence

from scripts import Wanted

# A statement, the end of its report without number, bound and used, and its lines of rows and definitions.
Case = tuple[str, str, list[str]]


def script_of(cases: Sequence[Case]) -> tuple[list[str], list[Wanted]]:
    """The statements, and the reports that they have to have."""
    return [f"{statement};" for statement, _, _ in cases], [Wanted(end, lines) for _, end, lines in cases]


def stuck(statement: str, token: str) -> Case:
    """A statement that is none from this token on. It stands behind a line feed."""
    return statement, f"refused E104 {1 + statement.rindex(token)}", []


INPUTS: list[Case] = [
    ("CREATE TABLE t (id INT, a TEXT(8) NULL, n INT NULL, PRIMARY KEY (id), CARDINALITY LIMIT 3 (a))", "ok", []),
    ("CREATE TABLE u (a INT NULL, b INT NULL, c INT, PRIMARY KEY (c, b, a))", "refused E208 b", []),
    ("CREATE TABLE u (a INT NULL, PRIMARY KEY (b))", "refused E203 b", []),
    ("CREATE TABLE u (a INT NULL, PRIMARY KEY (a, a))", "refused E204 a", []),
    ("CREATE TABLE u (a INT, b INT, c INT, d INT, e INT NULL, PRIMARY KEY (a, b, c, d, e))", "refused E208 e", []),
    ("CREATE TABLE u (a TEXT(8) NULL, b INT, PRIMARY KEY (b), FOREIGN KEY (a) REFERENCES t)", "refused E205 1", []),
    stuck("CREATE TABLE u (a INT NOT NULL, PRIMARY KEY (a))", "NOT"),
    stuck("CREATE TABLE u (a NULL, PRIMARY KEY (a))", "NULL"),
    ("INSERT INTO t VALUES (NULL, 'a', 1)", "refused E501 t id", []),
    ("UPDATE t SET a = 'a' WHERE id = NULL", "refused E501 t id", []),
    ("DELETE FROM t WHERE id = NULL", "refused E501 t id", []),
    stuck("INSERT INTO t VALUES (1, IS, 1)", "IS"),
    ("INSERT INTO t VALUES (1, 'NULL', nUll)", "ok", []),
    ("INSERT INTO t (a, n, id) VALUES (NULL, 2, 2)", "ok", []),
    ("EXPLAIN SELECT t.id FROM t WHERE t.id = 1 AND t.a = NULL", "refused E203 null", []),
    stuck("EXPLAIN SELECT t.id FROM t WHERE t.id = 1 AND t.a <> NULL", "NULL"),
    stuck("EXPLAIN SELECT t.id FROM t WHERE t.id = 1 AND t.a IS NOT NULL", "NOT"),
    stuck("EXPLAIN SELECT t.id FROM t WHERE t.id = 1 AND t.a IS TRUE", "TRUE"),
    ("EXPLAIN SELECT t.id FROM t WHERE t.id = 1 AND t.a = 1", "refused E302 2", []),
    ("EXPLAIN SELECT t.id FROM t WHERE t.a = [1] AND t.n = [1]", "refused E303", []),
    ("EXPLAIN SELECT t.id FROM t WHERE t.a IS NULL LIMIT 1", "refused E304 t", []),
    ("PREPARE both AS SELECT t.a, t.n FROM t WHERE t.id = [1] AND t.n >= [1]", "ok", []),
    ("RUN both (NULL)", "refused E402 1", []),
    ("RUN both (2)", "ok rows 1", ["row NULL, 2"]),
    ("RUN both (1)", "ok rows 0", []),
    ("PREPARE never AS SELECT t.id FROM t WHERE t.id = [1] AND t.id IS NULL", "ok", []),
    ("RUN never (1)", "ok rows 0", []),
    ("PREPARE empty AS SELECT t.id FROM t WHERE t.id = [1] AND t.a is null", "ok", []),
    ("RUN empty (1)", "ok rows 0", []),
    ("RUN empty (2)", "ok rows 1", ["row 2"]),
]
