"""SQLAlchemy's core over the driver: what is sent for a statement, what is refused, and what a transaction does."""

import importlib.util
import os
import subprocess
import sys
import unittest
from collections.abc import Iterable

from helpers import TOP, needs_file, new_folder, piql
from piql.writes import WRITES
from served import Served

IS_THERE = importlib.util.find_spec("sqlalchemy") is not None
if IS_THERE:
    import sqlalchemy as sa
    from alchemy_cases import ONE, POSTS, REFUSED, SCHEMA, SENT, USERS, K, N, P, T, U
    from piql.alchemy import Dialect, NotOffered
    from piql.alchemy.dialect import raw
    from sqlalchemy import and_, select, text

# What the script of the document prints.
SHOWN = """[('ann', 'rome')]
E504 2
['rome']
['pisa']
the language has no OR: run the query once for each value, and join the answers
"""
needs_sqlalchemy = unittest.skipUnless(IS_THERE, "SQLAlchemy isn't there (Debian: python3-sqlalchemy)")


def posts(numbers: Iterable[int]) -> list[dict[str, object]]:
    """Rows of values, one for each of these numbers."""
    return [{"owner": "ann", "number": number, "line": "x"} for number in numbers]


@needs_sqlalchemy
class TextTest(unittest.TestCase):
    """What is sent, without a store."""

    def setUp(self) -> None:
        self.dialect = Dialect()

    def test_statements(self) -> None:
        for statement, wanted in SENT:
            with self.subTest(wanted):
                self.assertEqual(str(statement.compile(dialect=self.dialect)), wanted)  # type: ignore[attr-defined]

    def test_refused(self) -> None:
        for make, wanted in REFUSED:
            with self.subTest(wanted), self.assertRaises(NotOffered) as caught:
                make().compile(dialect=self.dialect)  # type: ignore[attr-defined]
            self.assertIn(f"the language has {wanted}", str(caught.exception))

    def test_values_stand_in_the_order_of_their_places(self) -> None:
        statement = select(P.c.line).select_from(P.join(U, and_(N == P.c.owner, T == "first"))).where(P.c.number > 2)
        compiled = statement.where(K == 3).compile(dialect=self.dialect)
        names = compiled.positiontup
        self.assertEqual([compiled.params[it] for it in names], ["first", 2, 3])

    def test_urls(self) -> None:
        for url, wanted in (
            ("piql:///site.db?prepare=false&step=2.5", (["site.db"], {"prepare": False, "step": 2.5})),
            ("piql:///unix:/run/site/socket?timeout=9", (["unix:/run/site/socket"], {"timeout": 9.0})),
            ("piql://?store=etcd://a:2379/name", (["etcd://a:2379/name"], {})),
        ):
            self.assertEqual(self.dialect.create_connect_args(sa.engine.make_url(url)), wanted)
        for url in ("piql://host/x", "piql:///x?prepare=maybe", "piql:///x?reader=true", "piql:///x?step=a"):
            with self.subTest(url), self.assertRaises(sa.exc.ArgumentError):
                self.dialect.create_connect_args(sa.engine.make_url(url))


@needs_sqlalchemy
@needs_file
class StoreTest(unittest.TestCase):
    """Statements and transactions over a file."""

    def setUp(self) -> None:
        self.path = new_folder(self) / "store.db"
        with piql.connect(self.path) as connection:
            connection.cursor().executescript(SCHEMA)
        self.engine = sa.create_engine(f"piql:///{self.path}", future=True)
        self.addCleanup(self.engine.dispose)
        for name, town in (("ann", "rome"), ("bob", None)):
            with self.engine.begin() as connection:
                connection.execute(USERS.insert().values(name=name, town=town, karma=1, active=True))

    def town(self, name: str = "ann") -> object:
        """What is stored."""
        with self.engine.connect() as connection:
            return connection.execute(select(USERS.c.town).where(USERS.c.name == name)).scalar()

    def count(self) -> object:
        """How many posts are stored."""
        with self.engine.connect() as connection:
            return connection.execute(text("READ posts_of ('ann')")).scalar()

    def test_answers(self) -> None:
        with self.engine.connect() as connection:
            rows = connection.execute(select(USERS.c.name, USERS.c.active.label("a")).limit(5)).mappings().all()
            self.assertEqual([dict(it) for it in rows], [{"name": "ann", "a": True}, {"name": "bob", "a": True}])
            for limit in (1, 2):
                self.assertEqual(len(connection.execute(select(USERS).limit(limit)).all()), limit)
            self.assertEqual(connection.execute(text("RUN by_town (:town)"), {"town": "rome"}).all(), [("ann",)])
            self.assertEqual(connection.execute(text("READ posts_of (:name)"), {"name": "ann"}).scalar(), 0)
            with self.assertRaises(sa.exc.NotSupportedError):
                connection.execute(select(USERS).where(USERS.c.karma == 1))

    def test_a_transaction_of_one_write(self) -> None:
        one = USERS.update().where(ONE)
        with self.engine.begin() as connection:
            connection.execute(select(USERS.c.town).where(ONE))
            self.assertEqual(connection.execute(one.values(town="oslo")).rowcount, -1)
        self.assertEqual(self.town(), "oslo")
        with self.engine.connect() as connection:
            connection.execute(one.values(town="lima"))
            connection.rollback()
            connection.execute(one.values(town="pisa"))
        self.assertEqual(self.town(), "oslo")
        with self.assertRaises(ZeroDivisionError), self.engine.begin() as connection:
            connection.execute(one.values(town="lima"))
            1 / 0
        self.assertEqual(self.town(), "oslo")

    def test_the_writes_of_a_transaction_are_made_as_one(self) -> None:
        with self.engine.begin() as connection:
            connection.execute(POSTS.insert(), posts(range(3)))
            connection.execute(USERS.update().where(ONE).values(town="oslo"))
            connection.execute(text("DELETE FROM users WHERE name = 'bob'"))
            self.assertEqual(raw(connection.connection).execute("READ posts_of ('ann')").fetchall(), [(0,)])
        self.assertEqual((self.town(), self.town("bob"), self.count()), ("oslo", None, 3))
        with self.engine.connect() as connection:
            connection.execute(POSTS.insert(), posts(range(3, 9)))
            connection.rollback()
        self.assertEqual(self.count(), 3)

    def test_of_writes_of_which_one_is_refused_none_is_made(self) -> None:
        nobody = USERS.update().where(USERS.c.name == "nobody").values(town="oslo")
        twice = POSTS.insert().values(owner="ann", number=0, line="x")
        for last, number in ((nobody, "E504"), (twice, "E503")):
            with self.assertRaises(sa.exc.IntegrityError) as caught, self.engine.begin() as connection:
                connection.execute(twice)
                connection.execute(USERS.update().where(ONE).values(town="oslo"))
                connection.execute(last)
            found = caught.exception.orig
            assert isinstance(found, piql.Error)
            self.assertEqual((found.number, found.place), (number, 3))
        many = posts(range(WRITES + 1))
        with self.assertRaisesRegex(sa.exc.ProgrammingError, "at most 256 writes"), self.engine.begin() as connection:
            connection.execute(POSTS.insert(), many)
        self.assertEqual((self.town(), self.count()), ("rome", 0))
        with self.engine.begin() as connection:
            connection.execute(POSTS.insert(), many[:-1])
        self.assertEqual(self.count(), WRITES)

    def test_what_no_transaction_has(self) -> None:
        move, table = USERS.update().where(ONE).values(town="oslo"), text("CREATE TABLE more (id INT, PRIMARY KEY (id))")
        for first, second in ((move, table), (table, move), (table, table)):
            with self.assertRaisesRegex(sa.exc.NotSupportedError, "one other statement"):
                with self.engine.begin() as connection:
                    connection.execute(first)
                    connection.execute(second)
        with self.assertRaisesRegex(sa.exc.NotSupportedError, "a read behind one wouldn't see it"):
            with self.engine.begin() as connection:
                connection.execute(move)
                connection.execute(select(USERS.c.town).where(ONE))
        with self.assertRaisesRegex(piql.NotSupportedError, "no savepoints"), self.engine.begin() as connection:
            connection.begin_nested()
        self.assertEqual(self.town(), "rome")
        with self.engine.begin() as connection:
            connection.execute(table)
        with self.engine.connect() as connection:
            self.assertTrue(sa.inspect(connection).has_table("more"))

    def test_a_write_that_is_refused_at_its_commit(self) -> None:
        with self.assertRaisesRegex(sa.exc.IntegrityError, "E503"), self.engine.begin() as connection:
            connection.execute(USERS.insert().values(name="ann", town=None, karma=1, active=True))
        with self.assertRaises(sa.exc.DBAPIError), self.engine.begin() as connection:
            connection.execute(USERS.insert().values(name="cid", town=None, karma=1.5, active=True))
        self.assertEqual(self.town(), "rome")

    def test_autocommit(self) -> None:
        with self.engine.connect().execution_options(isolation_level="AUTOCOMMIT") as connection:
            connection.execute(POSTS.insert(), posts(range(3)))
            self.assertEqual(connection.execute(USERS.update().where(ONE).values(town="oslo")).rowcount, 1)
            missing = USERS.update().where(USERS.c.name == "nobody").values(town="oslo")
            self.assertEqual(connection.execute(missing).rowcount, 0)
            connection.rollback()
        self.assertEqual(self.count(), 3)
        self.assertEqual(self.town(), "oslo")
        # The next one has the level of before.
        with self.engine.connect() as connection:
            connection.execute(USERS.update().where(ONE).values(town="rome"))
        self.assertEqual(self.town(), "oslo")

    def test_tables_are_read(self) -> None:
        with self.engine.connect() as connection:
            found = sa.Table("posts", sa.MetaData(), autoload_with=connection)
            inspector = sa.inspect(connection)
            self.assertEqual(inspector.get_table_names(), ["users", "posts"])
            self.assertEqual((inspector.has_table("users"), inspector.has_table("none")), (True, False))
            self.assertRaises(sa.exc.NoSuchTableError, sa.Table, "none", sa.MetaData(), autoload_with=connection)
        self.assertEqual([it.name for it in found.primary_key], ["owner", "number"])
        self.assertEqual([str(it.target_fullname) for it in found.foreign_keys], ["users.name"])
        self.assertEqual([type(it.type).__name__ for it in found.c], ["String", "BigInteger", "String"])

    def test_a_server(self) -> None:
        self.engine.dispose()
        at = self.path.with_name("socket")
        server = Served(self.path, at)
        self.addCleanup(server.end)
        engine = sa.create_engine(f"piql:///unix:{at}", future=True, pool_pre_ping=True)
        self.addCleanup(engine.dispose)
        with engine.connect() as first, engine.connect() as second:
            for connection in (first, second):
                self.assertEqual(connection.execute(select(USERS.c.town).where(ONE)).all(), [("rome",)])

    def test_the_autocommit_of_1_4(self) -> None:
        if not sa.__version__.startswith("1."):
            self.skipTest("SQLAlchemy 2 has no autocommit of its own")
        engine = sa.create_engine("piql:///:memory:")
        self.addCleanup(engine.dispose)
        with engine.connect() as connection:
            for statement in SCHEMA.split(";")[:-1]:
                connection.execute(text(statement))
            connection.execute(USERS.insert().values(name="ann", town=None, karma=1, active=True))
            self.assertEqual(connection.execute(select(USERS.c.karma).where(ONE)).scalar(), 1)


@needs_sqlalchemy
@needs_file
class DocumentTest(unittest.TestCase):
    """The script that docs/SQLALCHEMY.md shows."""

    def test_it_runs(self) -> None:
        path = TOP / "docs/scripts/alchemy.py"
        found = subprocess.run(
            [sys.executable, path, new_folder(self) / "site.db"],
            capture_output=True,
            text=True,
            env={**os.environ, "PYTHONPATH": str(TOP / "drivers/python")},
        )
        self.assertEqual((found.stdout, found.stderr), (SHOWN, ""))
