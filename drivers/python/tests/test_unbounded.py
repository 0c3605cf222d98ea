"""Why a query has no bound, told from its text and the definitions, by the rules of docs/LANGUAGE.md."""

import random
import subprocess
import unittest

from helpers import PIQL, needs_memory, piql
from piql.details import detail_of
from piql.reports import DefinitionLine, Report, read_reports
from piql.schema import read_schema
from piql.selects import Select, Unread, read_select
from piql.unbounded import Order, of_stop, reordered, unbounded

TABLES = [
    "CREATE TABLE users (name TEXT(20), town TEXT(30), PRIMARY KEY (name));",
    "CREATE TABLE posts (id INT, owner TEXT(20), editor TEXT(20) NULL, topic TEXT(20), made INT, shown BOOL,"
    " PRIMARY KEY (id), CARDINALITY LIMIT 50 (owner, topic), FOREIGN KEY (owner) REFERENCES users,"
    " FOREIGN KEY (editor) REFERENCES users);",
    "CREATE TABLE votes (post INT, voter TEXT(20), mark INT, PRIMARY KEY (post, voter), CARDINALITY LIMIT 9 (voter),"
    " FOREIGN KEY (post) REFERENCES posts);",
]
SCHEMA = read_schema([DefinitionLine(number, text) for number, text in enumerate(TABLES, 1)])
OF_U = "users AS u has no bound of its own: "
OF_P = "posts AS p has no bound of its own: "
P_KEPT = "its key is (id), and its limits are over (owner, topic)."
U_KEPT = "its key is (name), and it has no CARDINALITY LIMIT."
NONE, WANTS = "no equality fixes a column of it, ", " Without LIMIT and PAGINATE it needs one."
NOR = " Nor can the query stop there: "
# A query, the alias of its refusal, what is told, and what the causes begin with.
TOLD: list[tuple[str, str, str, tuple[str, ...]]] = [
    ("SELECT u.name FROM users AS u", "u", f"{OF_U}{NONE}{U_KEPT}{WANTS}", ("no `LIMIT`",)),
    (
        "prepare q as select name from users where town = 'secret'",
        "users",
        f"users has no bound of its own: its equalities fix town, {U_KEPT}{WANTS}",
        ("no `LIMIT`",),
    ),
    (
        "EXPLAIN SELECT p.id FROM posts AS p WHERE p.owner = ? AND p.made = [2: made]",
        "p",
        f"{OF_P}its equalities fix owner, made, {P_KEPT}{WANTS}",
        ("no `LIMIT`",),
    ),
    (
        "SELECT p.id FROM posts p WHERE p.topic <> 'secret' AND p.shown = TRUE LIMIT 5",
        "p",
        f"{OF_P}its equalities fix shown, {P_KEPT}{NOR}any number of rows may be passed over by p.topic <> ...",
        ("`<>`",),
    ),
    (
        "SELECT p.id FROM posts AS p WHERE p.editor IS NULL PAGINATE 5",
        "p",
        f"{OF_P}{NONE}{P_KEPT}{NOR}any number of rows may be passed over by p.editor IS NULL.",
        ("`IS NULL`",),
    ),
    (
        "SELECT p.id FROM posts AS p WHERE p.made > 987 ORDER BY p.topic, p.made LIMIT 5",
        "p",
        f"{OF_P}{NONE}{P_KEPT}{NOR}p.made > .. is a range of a column that isn't first in ORDER BY (p.topic comes first"
        " there).",
        ("a range",),
    ),
    (
        "SELECT p.id FROM posts AS p WHERE p.made > 987 LIMIT 5",
        "p",
        f"{OF_P}{NONE}{P_KEPT}{NOR}p.made > .. is a range of a column that isn't first in ORDER BY (it isn't there).",
        ("a range",),
    ),
    (
        "SELECT p.id FROM posts AS p WHERE p.made > 987",
        "p",
        f"{OF_P}{NONE}{P_KEPT} Without LIMIT and PAGINATE it needs one, and with them the query could not stop there:"
        " p.made > .. is a range of a column that isn't first in ORDER BY (it isn't there).",
        ("no `LIMIT`", "a range"),
    ),
    (
        "SELECT p.id FROM posts AS p, users AS u WHERE u.name = p.owner AND u.town = 'secret' ORDER BY p.made LIMIT 5",
        "p",
        f"{OF_P}{NONE}{P_KEPT}{NOR}u.town = .. is a test of u, which is read after p.",
        ("a filter",),
    ),
    (
        "SELECT p.id FROM posts AS p JOIN users AS u WHERE u.name = p.editor LIMIT 5",
        "p",
        f"{OF_P}{NONE}{P_KEPT}{NOR}the foreign key (editor) of posts may be NULL in editor.",
        ("a `JOIN`",),
    ),
    (
        "SELECT p.id FROM posts AS p JOIN users AS u WHERE u.name = p.topic LIMIT 5",
        "p",
        f"{OF_P}{NONE}{P_KEPT}{NOR}no foreign key leads to u by its equalities.",
        ("a `JOIN`",),
    ),
    (
        "SELECT p.id FROM posts AS p JOIN users AS u WHERE u.name = p.owner ORDER BY p.made, u.town LIMIT 5",
        "p",
        f"{OF_P}{NONE}{P_KEPT}{NOR}ORDER BY has u.town, which is read after p.",
        ("a filter",),
    ),
    (
        "SELECT p.id FROM users AS u JOIN posts AS p WHERE u.name = p.owner AND p.shown = TRUE",
        "u",
        f"{OF_U}{NONE}{U_KEPT} Without LIMIT and PAGINATE it needs one, and with them the query could not stop there:"
        " no foreign key leads to p by its equalities.",
        ("no `LIMIT`", "a `JOIN`"),
    ),
    (
        "SELECT v.mark FROM users AS u JOIN posts AS p JOIN votes AS v WHERE v.voter = 'secret' AND p.id = v.post"
        " AND u.name = p.topic AND u.town <> 'x' ORDER BY u.town LIMIT 5",
        "u",
        f"As it is written, {OF_U}{NONE}{U_KEPT}",
        (),
    ),
]
# A text, and an alias, of which nothing is told.
UNTOLD = [
    ("SELECT u.name FROM users AS u WHERE u.town = 'x'", "v"),
    ("SELECT u.name FROM users AS u WHERE u.name = 'x'", "u"),
    ("SELECT p.id FROM posts AS p WHERE p.nothing = 1", "p"),
    ("SELECT p.id FROM nothing AS p", "p"),
    ("SELECT p.id FROM posts AS p WHERE p.made ! 1", "p"),
    ("SELECT p.id FROM posts AS p WHERE", "p"),
    ("SELECT p.id FROM posts AS p LIMIT 5 LIMIT 5", "p"),
    ("SELECT p.id FROM posts AS p JOIN users AS p", "p"),
    ("SELECT p.id FROM posts AS p WHERE p.made = [1", "p"),
    ("", "p"),
]
RANDOM_QUERIES = 400


class ToldTest(unittest.TestCase):
    """Queries whose cause is known."""

    def test_causes(self) -> None:
        for text, alias, wanted, causes in TOLD:
            with self.subTest(text):
                found = detail_of(("E304", alias), text, SCHEMA)
                self.assertEqual((found.detail, found.causes), (wanted, causes))
                self.assertNotIn("secret", found.detail)
                self.assertNotIn("987", found.detail)

    def test_nothing_is_told_of_what_is_not_certain(self) -> None:
        for text, alias in UNTOLD:
            with self.subTest(text):
                self.assertEqual(detail_of(("E304", alias), text, SCHEMA).detail, "")

    @needs_memory
    def test_a_message_has_the_one_way_out(self) -> None:
        with piql.connect(":memory:") as connection:
            connection.cursor().executescript("".join(TABLES))
            text = "SELECT p.id FROM posts AS p, users AS u WHERE u.name = p.owner AND u.town = ? AND p.made > 1"
            with self.assertRaises(piql.NotSupportedError) as caught:
                connection.execute(f"{text} ORDER BY p.made LIMIT 5", ("secret",))
        error = caught.exception
        self.assertIn("u.town = .. is a test of u, which is read after p.", str(error))
        self.assertEqual((error.table, error.key, error.fields), ("posts", (), {"alias": "p"}))
        self.assertEqual(error.way_out, "the column copied to the first table")


def random_query(source: random.Random) -> str:
    """Any query over the tables."""
    columns = {"u": ["name", "town"], "p": ["id", "owner", "editor", "topic", "made"], "v": ["post", "voter", "mark"]}
    numbers = {"id", "made", "post", "mark"}
    names = {"u": "users", "p": "posts", "v": "votes"}
    aliases = source.sample("upv", source.choice([1, 1, 2, 2, 3]))
    refs = [f"{alias}.{column}" for alias in aliases for column in columns[alias]]
    tests = []
    for _ in range(source.randrange(4)):
        ref = source.choice(refs)
        is_number = ref[2:] in numbers
        operator = source.choice(["=", "=", "=", "<>", "<", ">="])
        tests.append(source.choice([f"{ref} IS NULL"] + [f"{ref} {operator} {7 if is_number else chr(39) * 2}"] * 6))
    joins = ["u.name = p.owner", "u.name = p.editor", "p.id = v.post", "u.name = v.voter", "p.owner = v.voter"]
    tests += [it for it in joins if it[0] in aliases and it.split("= ")[1][0] in aliases and source.random() < 0.6]
    text = f"SELECT {refs[0]} FROM {', '.join(f'{names[it]} AS {it}' for it in aliases)}"
    text += f" WHERE {' AND '.join(tests)}" if tests else ""
    order = source.sample(refs, min(source.randrange(3), len(refs)))
    text += f" ORDER BY {', '.join(order)}" if order else ""
    return text + source.choice(["", " LIMIT 5", " LIMIT 5", " PAGINATE 5"])


@needs_memory
class EngineTest(unittest.TestCase):
    """The engine refuses and accepts what these rules say."""

    def test_random_queries(self) -> None:
        source = random.Random(304)
        queries = [random_query(source) for _ in range(RANDOM_QUERIES)]
        assert PIQL is not None
        script = "".join(TABLES) + "".join(f"EXPLAIN {it};" for it in queries)
        run = subprocess.run([PIQL, "run"], input=script, capture_output=True, text=True)
        reports = [it for it in read_reports(run.stdout) if isinstance(it, Report)][len(TABLES) :]
        refused = 0
        for text, report in zip(queries, reports, strict=True):
            select = read_select(text, SCHEMA)
            orders = [Order(select, select.relations), Order(select, reordered(select))]
            is_bounded = [self.has_bound(order) for order in orders]
            with self.subTest(text):
                if report.end.refusal[:1] == ("E304",):
                    refused += 1
                    self.assertEqual(is_bounded, [False, False])
                    found = unbounded(text, SCHEMA, report.end.refusal[1])
                    assert found is not None
                    self.assertEqual(bool(found.causes), orders[0].relations == orders[1].relations)
                elif not self.may_be_closed(select):
                    self.assertTrue(any(is_bounded))
        self.assertGreater(refused, 100)

    def may_be_closed(self, select: Select) -> bool:
        """Whether the engine may draw equalities together: two columns are equal, and something else is."""
        equal = [it for it in select.predicates if it.operator == "="]
        return len(equal) > 1 and any(it.right for it in equal)

    def has_bound(self, order: Order) -> bool:
        """Whether a query has one in an order of its relations."""
        place = order.first_unbounded()
        return place is None or order.select.stops and not of_stop(order, place)


class ReadTest(unittest.TestCase):
    """Texts that are no queries."""

    def test_cut_texts(self) -> None:
        text = TOLD[-1][0]
        for cut in range(len(text)):
            try:
                read_select(text[:cut], SCHEMA)
            except Unread:
                continue
