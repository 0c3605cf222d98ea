"""Queries over users, their subscriptions and their thoughts, answered by a plain product and a filter."""

import itertools
import random
import re
from collections.abc import Iterator
from dataclasses import dataclass, replace

from comparing import COMPARISONS

Value = bool | int | str
Row = dict[str, Value]
# The rows of each table, and a row of each relation by its alias.
Rows = dict[str, list[Row]]
Combination = dict[str, Row]

KEYS = {"users": ["name"], "subs": ["owner", "target"], "thoughts": ["owner", "ts"]}
DEFINITIONS = """\
CREATE TABLE users (name TEXT(16), city TEXT(16), PRIMARY KEY (name));
CREATE TABLE subs (owner TEXT(16), target TEXT(16), approved BOOL, PRIMARY KEY (owner, target),
  CARDINALITY LIMIT 100 (owner), FOREIGN KEY (owner) REFERENCES users, FOREIGN KEY (target) REFERENCES users);
CREATE TABLE thoughts (owner TEXT(16), ts INT, body TEXT(140), PRIMARY KEY (owner, ts),
  FOREIGN KEY (owner) REFERENCES users);
"""
NAMES = ["ann", "bob", "cid", "dot", "eve", "fay"]
CITIES = ["oslo", "rome"]
TIMES = range(1, 7)
PRINTED = re.compile(r"^def \d+ PREPARE (\w+) AS SELECT .*? FROM (.*?)(?: WHERE .*)?;$", re.MULTILINE)


@dataclass(frozen=True)
class Column:
    alias: str
    name: str

    def __str__(self) -> str:
        return f"{self.alias}.{self.name}"


@dataclass(frozen=True)
class Parameter:
    """A parameter by its number, with the value that the run gives it."""

    number: int
    value: Value

    def __str__(self) -> str:
        return f"[{self.number}]"


@dataclass(frozen=True)
class Predicate:
    left: Column
    comparison: str
    right: Column | Parameter | Value

    def __str__(self) -> str:
        right = self.right if isinstance(self.right, (Column, Parameter)) else literal(self.right)
        return f"{self.left} {self.comparison} {right}"

    def holds(self, combination: Combination) -> bool:
        return COMPARISONS[self.comparison](cell(combination, self.left), self.other(combination))

    def other(self, combination: Combination) -> Value:
        match self.right:
            case Column():
                return cell(combination, self.right)
            case Parameter(value=value):
                return value
            case value:
                return value


@dataclass(frozen=True)
class Query:
    """A query; relations are tables by their aliases, in the order of FROM."""

    relations: dict[str, str]
    select: list[Column]
    predicates: list[Predicate]
    order: list[tuple[Column, bool]]
    stop: str = ""

    def text(self) -> str:
        parts = [
            f"SELECT {', '.join(map(str, self.select))}",
            f"FROM {', '.join(f'{table} AS {alias}' for alias, table in self.relations.items())}",
            f"WHERE {' AND '.join(map(str, self.predicates))}",
        ]
        if self.order:
            items = (f"{column} DESC" if falls else str(column) for column, falls in self.order)
            parts.append(f"ORDER BY {', '.join(items)}")
        return " ".join([*parts, self.stop]).rstrip()

    def parameters(self) -> list[Value]:
        found = {p.right.number: p.right.value for p in self.predicates if isinstance(p.right, Parameter)}
        return [found[number] for number in sorted(found)]

    def orders(self) -> Iterator["Query"]:
        """The query in each order of its relations."""
        for aliases in itertools.permutations(self.relations):
            yield replace(self, relations={alias: self.relations[alias] for alias in aliases})


def cell(combination: Combination, column: Column) -> Value:
    return combination[column.alias][column.name]


def literal(value: Value) -> str:
    """A value as a script has it, and as a report prints it."""
    match value:
        case bool():
            return "true" if value else "false"
        case int():
            return str(value)
    return "'" + value.replace("'", "''") + "'"


def combinations(query: Query, rows: Rows) -> list[Combination]:
    """Each combination of a row of each relation for which all predicates hold, in no order that counts."""
    products = itertools.product(*(rows[table] for table in query.relations.values()))
    found = (dict(zip(query.relations, product)) for product in products)
    return [combination for combination in found if all(p.holds(combination) for p in query.predicates)]


def answer(query: Query, rows: Rows, aliases: list[str]) -> list[str]:
    """The lines of all rows, by ORDER BY and then by the keys of the relations in this order."""
    found = combinations(query, rows)
    keys = [Column(alias, name) for alias in aliases for name in KEYS[query.relations[alias]]]
    found.sort(key=lambda combination: [cell(combination, column) for column in keys])
    for column, falls in reversed(query.order):
        found.sort(key=lambda combination: cell(combination, column), reverse=falls)
    return ["row " + ", ".join(literal(cell(combination, c)) for c in query.select) for combination in found]


def printed_orders(output: str) -> dict[str, list[str]]:
    """The aliases of each prepared query, in the order that SHOW prints."""
    found = {}
    for name, relations in PRINTED.findall(output):
        tables = re.split(r" (?:ORDER BY|LIMIT|PAGINATE) ", relations)[0]
        found[name] = [part.split(" AS ")[1] for part in tables.split(", ")]
    return found


# Tables and queries at random


def random_rows(chance: random.Random) -> Rows:
    users = [{"name": name, "city": chance.choice(CITIES)} for name in NAMES]
    pairs = [(owner, target) for owner in NAMES for target in NAMES if chance.random() < 0.4]
    subs = [{"owner": owner, "target": target, "approved": chance.random() < 0.6} for owner, target in pairs]
    times = [(owner, ts) for owner in NAMES for ts in TIMES if chance.random() < 0.4]
    thoughts = [{"owner": owner, "ts": ts, "body": f"{owner} at {ts}"} for owner, ts in times]
    return {"users": users, "subs": subs, "thoughts": thoughts}


def inserts(rows: Rows) -> str:
    found = ((table, row) for table, members in rows.items() for row in members)
    return "".join(f"INSERT INTO {table} VALUES ({', '.join(map(literal, row.values()))});\n" for table, row in found)


PEOPLE = {"users": ["name"], "subs": ["owner", "target"], "thoughts": ["owner"]}


def joined(chance: random.Random, alias: str, table: str, earlier: dict[str, str]) -> list[Predicate]:
    """Equalities of a relation with earlier ones, each from either side, and at times of a second column."""
    people = [Column(other, name) for other, kind in earlier.items() for name in PEOPLE[kind]]
    own = [Column(alias, name) for name in PEOPLE[table]]
    found = [(own[0], chance.choice(people))]
    if len(own) > 1 and chance.random() < 0.4:
        found.append((own[1], chance.choice(people)))
    sides = (pair if chance.random() < 0.5 else pair[::-1] for pair in found)
    return [Predicate(left, "=", right) for left, right in sides]


def filters(chance: random.Random, alias: str, table: str) -> list[Predicate]:
    some = {
        "users": [Predicate(Column(alias, "city"), chance.choice(["=", "<>"]), chance.choice(CITIES))],
        "subs": [Predicate(Column(alias, "approved"), "=", True), Predicate(Column(alias, "target"), "<", "dot")],
        "thoughts": [Predicate(Column(alias, "ts"), chance.choice(["<", ">="]), chance.choice(TIMES))],
    }
    return [predicate for predicate in some[table] if chance.random() < 0.25]


def random_query(chance: random.Random, size: int) -> Query:
    """A query of so many relations: the parameter fixes one, and equalities tie each other to one of those before."""
    relations: dict[str, str] = {}
    predicates: list[Predicate] = []
    for alias in "abcd"[:size]:
        table = chance.choice(["users", "subs", "subs", "thoughts"])
        if relations:
            predicates += joined(chance, alias, table, relations)
        else:
            predicates.append(Predicate(Column(alias, PEOPLE[table][0]), "=", Parameter(1, chance.choice(NAMES))))
        if table == "thoughts" and chance.random() < 0.5:
            predicates.append(Predicate(Column(alias, "ts"), "=", chance.choice(TIMES)))
        predicates += filters(chance, alias, table)
        relations[alias] = table
    columns = [Column(alias, name) for alias, table in relations.items() for name in KEYS[table]]
    chance.shuffle(predicates)
    ordered = chance.sample(columns, min(chance.choice([0, 0, 1, 2]), len(columns)))
    order = [(column, chance.random() < 0.5) for column in ordered]
    return Query(relations, chance.sample(columns, min(3, len(columns))), predicates[:16], order)
