"""PEP 249, name by name."""

import unittest

from helpers import StoreCase, needs_file, new_folder, piql

MODULE = """apilevel threadsafety paramstyle connect Warning Error InterfaceError DatabaseError DataError
OperationalError IntegrityError InternalError ProgrammingError NotSupportedError STRING BINARY NUMBER
DATETIME ROWID Date Time Timestamp DateFromTicks TimeFromTicks TimestampFromTicks Binary"""
CONNECTION = """close commit rollback cursor Warning Error InterfaceError DatabaseError DataError OperationalError
IntegrityError InternalError ProgrammingError NotSupportedError autocommit"""
CURSOR = """description rowcount callproc close execute executemany fetchone fetchmany fetchall arraysize setinputsizes
setoutputsize rownumber connection lastrowid __iter__ __next__"""
# Of each exception the one that it has to be a kind of.
PARENTS = [
    (piql.Warning, Exception),
    (piql.Error, Exception),
    (piql.InterfaceError, piql.Error),
    (piql.DatabaseError, piql.Error),
    (piql.DataError, piql.DatabaseError),
    (piql.OperationalError, piql.DatabaseError),
    (piql.IntegrityError, piql.DatabaseError),
    (piql.InternalError, piql.DatabaseError),
    (piql.ProgrammingError, piql.DatabaseError),
    (piql.NotSupportedError, piql.DatabaseError),
]
SCRIPT = """
CREATE TABLE t (a INT, b TEXT(5) NULL, c BOOL, PRIMARY KEY (a));
PREPARE by_key AS SELECT x.b, x.c FROM t AS x WHERE x.a = [1];
INSERT INTO t VALUES (1, 'one', TRUE);
INSERT INTO t VALUES (2, NULL, FALSE);
INSERT INTO t VALUES (3, 'three', TRUE);
"""


class ModuleTest(unittest.TestCase):
    """The module's names, without an engine."""

    def test_names(self) -> None:
        for name in MODULE.split():
            self.assertTrue(hasattr(piql, name), name)
            self.assertIn(name, piql.__all__)
        self.assertEqual((piql.apilevel, piql.threadsafety, piql.paramstyle), ("2.0", 2, "qmark"))

    def test_exceptions(self) -> None:
        for child, parent in PARENTS:
            self.assertTrue(issubclass(child, parent))
        self.assertFalse(issubclass(piql.InterfaceError, piql.DatabaseError))

    def test_types(self) -> None:
        self.assertEqual(piql.STRING, "TEXT")
        self.assertEqual(piql.NUMBER, "INT")
        self.assertEqual(piql.NUMBER, "BOOL")
        for kind in (piql.BINARY, piql.DATETIME, piql.ROWID):
            self.assertNotIn(kind, ["TEXT", "INT", "BOOL"])

    def test_constructors(self) -> None:
        self.assertEqual(piql.Date(2026, 1, 2), "2026-01-02")
        self.assertEqual(piql.Time(3, 4, 5), "03:04:05")
        self.assertEqual(piql.Timestamp(2026, 1, 2, 3, 4, 5), "2026-01-02 03:04:05")
        self.assertEqual(piql.Binary(b"\0\xff"), "00ff")
        ticks = 1_700_000_000
        self.assertEqual(f"{piql.DateFromTicks(ticks)} {piql.TimeFromTicks(ticks)}", piql.TimestampFromTicks(ticks))


class CursorTest(StoreCase):
    """Connections and cursors over one store."""

    script = SCRIPT

    def test_names(self) -> None:
        for name in CONNECTION.split():
            self.assertTrue(hasattr(self.connection, name), name)
        cursor = self.connection.cursor()
        for name in CURSOR.split():
            self.assertTrue(hasattr(cursor, name), name)

    def test_before_any_statement(self) -> None:
        cursor = self.connection.cursor()
        self.assertIsNone(cursor.description)
        self.assertEqual((cursor.rowcount, cursor.arraysize), (-1, 1))
        with self.assertRaises(piql.Error):
            cursor.fetchone()

    def test_fetching(self) -> None:
        cursor = self.connection.execute("SELECT a FROM t ORDER BY a LIMIT 5")
        self.assertEqual((cursor.rowcount, cursor.rownumber), (3, 0))
        self.assertEqual(cursor.fetchone(), (1,))
        self.assertEqual(cursor.fetchmany(), [(2,)])
        self.assertEqual(cursor.fetchmany(9), [(3,)])
        self.assertEqual((cursor.fetchone(), cursor.fetchmany(), cursor.fetchall()), (None, [], []))
        cursor.execute("SELECT a FROM t ORDER BY a LIMIT 5")
        self.assertEqual(next(cursor), (1,))
        self.assertEqual(list(cursor), [(2,), (3,)])
        self.assertRaises(StopIteration, next, cursor)

    def test_description(self) -> None:
        select = "SELECT x.a, x.b, y.a, x.c FROM t AS x JOIN t AS y WHERE x.a = ? AND y.a = 1"
        cursor = self.connection.execute(select, (1,))
        self.assertEqual([it[0] for it in cursor.description or ()], ["x.a", "b", "y.a", "c"])
        self.assertEqual([it[1] for it in cursor.description or ()], ["INT", "TEXT", "INT", "BOOL"])
        self.assertEqual([it[6] for it in cursor.description or ()], [False, True, False, False])
        self.assertEqual({len(it) for it in cursor.description or ()}, {7})
        cursor.execute("UPDATE t SET c = TRUE WHERE a = 1")
        self.assertIsNone(cursor.description)

    def test_callproc(self) -> None:
        cursor = self.connection.cursor()
        self.assertEqual(cursor.callproc("by_key", [2]), [2])
        self.assertEqual(cursor.fetchall(), [(None, False)])
        self.assertEqual([it[0] for it in cursor.description or ()], ["b", "c"])

    def test_show_and_explain(self) -> None:
        cursor = self.connection.execute("SHOW")
        self.assertEqual(cursor.fetchone(), (1, "CREATE TABLE t (a INT, b TEXT(5) NULL, c BOOL, PRIMARY KEY (a));"))
        self.assertEqual([it[0] for it in cursor.description or ()], ["number", "definition"])
        cursor.execute("EXPLAIN SELECT a FROM t WHERE c = ? ORDER BY b DESC LIMIT 2")
        self.assertEqual(cursor.fetchall(), [("stop 1", 3, 4, "t (c, b DESC)")])

    def test_what_is_not_offered(self) -> None:
        self.connection.commit()
        self.assertTrue(self.connection.autocommit)
        with self.assertRaises(piql.NotSupportedError):
            self.connection.rollback()
        cursor = self.connection.cursor()
        cursor.setinputsizes([1])
        cursor.setoutputsize(1)
        self.assertIsNone(cursor.lastrowid)


@needs_file
class ClosingTest(unittest.TestCase):
    """What is closed can't be used."""

    def test_closing(self) -> None:
        connection = piql.connect(new_folder(self) / "store.db")
        cursor = connection.cursor()
        cursor.close()
        with self.assertRaises(piql.InterfaceError):
            cursor.execute("SHOW")
        connection.close()
        connection.close()
        with self.assertRaises(piql.InterfaceError):
            connection.cursor()
        with self.assertRaises(piql.InterfaceError):
            connection.commit()
