"""Tests of the token that a refusal speaks of."""

import unittest

from piql.scripts import tokens
from tools.pointing import pointed

TABLE = (
    "CREATE TABLE t (a INT, b TEXT(1001), c INT, a INT, PRIMARY KEY (b, b),"
    " CARDINALITY LIMIT 0 (c), FOREIGN KEY (c) REFERENCES u);"
)
QUERY = "PREPARE q AS SELECT x.a, b FROM t AS x JOIN u AS x, w WHERE x.a = 1 AND b = [1] ORDER BY a, a LIMIT 1001;"
RUN = "RUN q (7, 'x') AFTER 'AQ';"
INSERT = "INSERT INTO t VALUES (7, 'x', TRUE);"
LISTED = "INSERT INTO t (c, a, b) VALUES (7, 'x', TRUE);"
ALTER = "ALTER TABLE t ADD COLUMN w TEXT(1001) DEFAULT 7;"
COUNTER = "CREATE COUNTER c OF t (a, b, a, c, d, e);"
READ = "READ read (7, 'x');"
UPDATE = "UPDATE t SET b = 'x', b = 'y' WHERE a = 7;"
CHANGE = "UPDATE t SET a ADD 5, b ADD -1 WHERE if = 7 AND c = 8 IF b >= 9 AND a IS NULL AND c = 'x';"
REMOVE = "DELETE FROM t WHERE if = 7 IF if <> 7;"
SELECT = "SELECT t.a, b FROM t WHERE a = [1] AND b = 'x' LIMIT 5;"
BATCH = (
    "BATCH INSERT INTO t VALUES (7, 'x'), UPDATE t SET b = 1, a = 2 WHERE c = 3 IF b = 4 AND a > 5,"
    " DELETE FROM w WHERE c = 6;"
)
MANY = "BATCH " + ", ".join(f"DELETE FROM t WHERE a = {i}" for i in range(257)) + ";"
# A statement, its refusal, and the place of the token, as what stands before it and the token.
CASES = [
    (TABLE, "E201 t", "CREATE TABLE |t"),
    (TABLE, "E202 u", "REFERENCES |u"),
    (TABLE, "E203 c", "TEXT(1001), |c"),
    (TABLE, "E204 a", "c INT, |a"),
    (TABLE, "E204 b", "KEY (b, |b"),
    (TABLE, "E205 1", "(c), |FOREIGN"),
    (TABLE, "E206 text", "TEXT(|1001"),
    (TABLE, "E206 cardinality", "LIMIT |0"),
    (TABLE, "E206 key", "a INT, |PRIMARY"),
    (TABLE, "E208 b", "a INT, |b"),
    (QUERY, "E202 w", "x, |w"),
    (QUERY, "E203 b", "x.a, |b"),
    (QUERY, "E204 a", "BY a, |a"),
    (QUERY, "E206 stop", "LIMIT |1001"),
    (QUERY, "E206 order", "[1] |ORDER"),
    (QUERY, "E301 x", "u AS |x"),
    (QUERY, "E302 2", "AND |b"),
    (QUERY, "E303", "b = |["),
    (QUERY, "E304 w", "x, |w"),
    (RUN, "E401 q", "RUN |q"),
    (RUN, "E402 0", "RUN |q"),
    (RUN, "E402 2", "7, |'x'"),
    (RUN, "E403", "AFTER |'AQ'"),
    (RUN, "E404", ") |AFTER"),
    (INSERT, "E501 t b", "7, |'x'"),
    (INSERT, "E503 t", "INTO |t"),
    (LISTED, "E501 t b", "'x', |TRUE"),
    (ALTER, "E202 t", "TABLE |t"),
    (ALTER, "E204 w", "COLUMN |w"),
    (ALTER, "E206 columns", "COLUMN |w"),
    (ALTER, "E206 text", "TEXT(|1001"),
    (ALTER, "E501 t w", "DEFAULT |7"),
    (UPDATE, "E204 b", "'x', |b"),
    (UPDATE, "E501 t a", "a = |7"),
    (UPDATE, "E504 t", "'y' |WHERE"),
    (UPDATE, "E510 c", "UPDATE |t"),
    (INSERT, "E510 c", "INTO |t"),
    (COUNTER, "E201 c", "COUNTER |c"),
    (COUNTER, "E202 t", "OF |t"),
    (COUNTER, "E203 c", "a, |c"),
    (COUNTER, "E204 a", "b, |a"),
    (COUNTER, "E206 counters", "CREATE |COUNTER"),
    (COUNTER, "E206 limit_columns", "c, |d"),
    (COUNTER, "E209 t", "OF |t"),
    (CHANGE, "E202 t", "UPDATE |t"),
    ("UPDATE t SET b = 1, b ADD 1 WHERE a = 7 IF b = 1;", "E204 b", "1, |b"),
    (CHANGE, "E206 predicates", "c = 8 |IF"),
    (CHANGE, "E302 3", "NULL AND |c"),
    (CHANGE, "E501 t b", "b ADD |-1"),
    (CHANGE, "E501 t c", "c = |8"),
    (CHANGE, "E511 t 1", "IF |b"),
    (CHANGE, "E511 t 2", "9 AND |a"),
    (CHANGE, "E514 t b", "5, |b"),
    (REMOVE, "E511 t 1", "IF |if"),
    (SELECT, "E302 2", "[1] AND |b"),
    (SELECT, "E303", "a = |["),
    (SELECT, "E304 t", "FROM |t"),
    (SELECT, "E406 t", "FROM |t"),
    (READ, "E402 0", "READ |read"),
    (READ, "E402 2", "7, |'x'"),
    (READ, "E405 read", "READ |read"),
    (BATCH, "E513 1 E503 t", "INTO |t"),
    (BATCH, "E513 1 E501 t b", "7, |'x'"),
    (BATCH, "E513 2 E511 t 2", "4 AND |a"),
    (BATCH, "E513 2 E501 t a", "a = |2"),
    (BATCH, "E513 3 E202 w", "FROM |w"),
    (BATCH, "E513 3 E506 s 1", "5, |DELETE"),
    (MANY, "E206 writes", "a = 255, |DELETE"),
]


class PointingTest(unittest.TestCase):
    def test_each_refusal_has_its_token(self) -> None:
        for statement, refusal, wanted in CASES:
            with self.subTest(refusal=refusal, statement=statement[:20]):
                code, *fields = refusal.split(" ")
                token = pointed(code, tuple(fields), tokens(statement), ["a", "b", "c"])
                before, text = wanted.split("|")
                assert token is not None
                self.assertEqual(token.text, text)
                if code != "E208":
                    self.assertTrue(statement[: token.start].endswith(before))

    def test_what_names_no_token_has_none(self) -> None:
        for refusal in ("E305 10101 1010100", "E506 t 1", "E207 t", "E302 9", "E205 9", "E206 limits", "E501 u z"):
            code, *fields = refusal.split(" ")
            self.assertIsNone(pointed(code, tuple(fields), tokens(QUERY), []), refusal)


if __name__ == "__main__":
    unittest.main()
