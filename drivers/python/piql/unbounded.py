"""Why a query has no bound, as far as its text and the definitions tell it, by the rules of docs/LANGUAGE.md.

A query is tried as it is written, and then with its relations in another order. So what keeps it from stopping is told
only where the two orders are the same: then it keeps each of them.
"""

from typing import NamedTuple

from .schema import Schema, Table, columns_behind, limits_of
from .selects import RANGES, Predicate, Ref, Relation, Select, read_select

# The causes, by what the rows of the table of E304 in REFUSALS.md begin with.
NO_STOP, UNEQUAL, NULLS, RANGE, JOIN, FILTER = "no `LIMIT`", "`<>`", "`IS NULL`", "a range", "a `JOIN`", "a filter"


class Unbounded(NamedTuple):
    """What is told of a query: a sentence or two, the relation's table, its fixed columns, and the causes."""

    text: str
    table: str
    fixed: tuple[str, ...]
    causes: tuple[str, ...]


class Order:
    """A query with its relations in an order."""

    def __init__(self, select: Select, relations: tuple[Relation, ...]) -> None:
        self.select, self.relations = select, relations
        self.places = {it.alias: place for place, it in enumerate(relations)}

    def own(self, place: int) -> list[Predicate]:
        """The predicates that belong to a relation: it is the latest that they mention."""
        return [it for it in self.select.predicates if max(map(self.place, refs_of(it))) == place]

    def place(self, ref: Ref) -> int:
        """The place of a column's relation."""
        return self.places[ref.alias]

    def fixed(self, place: int) -> set[str]:
        """The columns of a relation that equalities tie to values or to columns of relations before it."""
        own = [it for it in self.own(place) if it.operator == "="]
        return {ref.column for it in own for ref in refs_of(it) if self.place(ref) == place}

    def bound(self, place: int) -> int | None:
        """How many rows of a relation there are for each combination before it, if something limits them."""
        table, fixed = self.relations[place].table, self.fixed(place)
        if fixed.issuperset(table.key):
            return 1
        return min((number for number, columns in limits_of(table) if fixed.issuperset(columns)), default=None)

    def first_unbounded(self) -> int | None:
        """The first relation without a bound of its own."""
        return next((place for place in range(len(self.relations)) if self.bound(place) is None), None)


def refs_of(predicate: Predicate) -> list[Ref]:
    """The columns of a predicate."""
    return [predicate.left] + ([predicate.right] if predicate.right else [])


def reordered(select: Select) -> tuple[Relation, ...]:
    """The order that is tried behind that of the text."""
    done: list[Relation] = []
    left = list(select.relations)
    while left:
        trials = [Order(select, (*done, it, *(other for other in left if other is not it))) for it in left]
        bounds = [trial.bound(len(done)) for trial in trials]
        known = [number for number in bounds if number is not None]
        ordered = [it for it in left if any(ref.alias == it.alias for ref in select.order)]
        chosen = left[bounds.index(min(known))] if known else (ordered or left)[0]
        done.append(chosen)
        left.remove(chosen)
    return tuple(done)


def listed(names: list[str]) -> str:
    """Names for a reader."""
    return ", ".join(names)


def of_bound(relation: Relation, fixed: list[str]) -> str:
    """Why a relation has no bound of its own."""
    table = relation.table
    what = table.name if table.name == relation.alias else f"{table.name} AS {relation.alias}"
    limits = [f"({listed(list(columns))})" for _, columns in limits_of(table)]
    kept = f"and its limits are over {' and '.join(limits)}" if limits else "and it has no CARDINALITY LIMIT"
    ties = f"its equalities fix {listed(fixed)}" if fixed else "no equality fixes a column of it"
    return f"{what} has no bound of its own: {ties}, its key is ({listed(list(table.key))}), {kept}."


def of_tests(order: Order, place: int) -> list[tuple[str, str]]:
    """Which tests of a relation keep it from being read in the order of the answer, each with its cause."""
    alias, fixed = order.relations[place].alias, order.fixed(place)
    own = [ref.column for ref in order.select.order if ref.alias == alias and ref.column not in fixed]
    found = []
    for it in order.own(place):
        if it.left.column in fixed or it.operator == "=":
            continue
        if it.operator not in RANGES:
            cause = NULLS if it.operator == "IS NULL" else UNEQUAL
            found.append((f"any number of rows may be passed over by {it}", cause))
        elif own[:1] != [it.left.column]:
            first = f"{alias}.{own[0]} comes first there" if own else "it isn't there"
            found.append((f"{it} is a range of a column that isn't first in ORDER BY ({first})", RANGE))
    return found


def keys_between(order: Order, place: int) -> list[tuple[Table, tuple[str, ...]]]:
    """The foreign keys from a relation before to this one that its equalities spell, each with its table."""
    relation = order.relations[place]
    ties = {(a, b) for it in order.own(place) if it.right for a, b in ((it.left, it.right), (it.right, it.left))}
    found = []
    for before in order.relations[:place]:
        for columns, parent in columns_behind(before.table, "FOREIGN", "KEY"):
            pairs = zip(columns, relation.table.key)
            wanted = [(Ref(before.alias, a), Ref(relation.alias, b)) for a, b in pairs]
            if parent == relation.table.name and all(it in ties for it in wanted):
                found.append((before.table, columns))
    return found


def of_partner(order: Order, place: int, first: str) -> tuple[str, str] | None:
    """Why a combination may have no partner in a relation, or more than one; None where it has exactly one."""
    relation = order.relations[place]
    keys = keys_between(order, place)
    sound = [columns for table, columns in keys if not any(table.column(it).nullable for it in columns)]
    if not keys:
        return f"no foreign key leads to {relation.alias} by its equalities", JOIN
    if not sound:
        table, columns = keys[0]
        nullable = listed([it for it in columns if table.column(it).nullable])
        return f"the foreign key ({listed(list(columns))}) of {table.name} may be NULL in {nullable}", JOIN
    tests = [it for it in order.own(place) if it.right is None]
    ties = sum(it.right is not None for it in order.own(place))
    if tests:
        return f"{tests[0]} is a test of {relation.alias}, which is read after {first}", FILTER
    return None if ties == max(map(len, sound)) else (f"{relation.alias} has equalities beside its foreign key", FILTER)


def of_stop(order: Order, place: int) -> list[tuple[str, str]]:
    """What keeps a query from stopping at a relation."""
    found, first = of_tests(order, place), order.relations[place].alias
    later = [ref for ref in order.select.order if order.place(ref) > place]
    if later:
        found.append((f"ORDER BY has {later[0]}, which is read after {first}", FILTER))
    partners = (of_partner(order, it, first) for it in range(place + 1, len(order.relations)))
    return found + [it for it in partners if it]


def unbounded(statement: str, schema: Schema, alias: str) -> Unbounded | None:
    """What is told of a query that the engine refused by the alias of a relation. What isn't certain is left out."""
    select = read_select(statement, schema)
    order = Order(select, select.relations)
    place = order.first_unbounded()
    if place is None or select.relations[place].alias != alias:
        return None
    relation, fixed = select.relations[place], order.fixed(place)
    names = [it.name for it in relation.table.columns if it.name in fixed]
    text = of_bound(relation, names)
    if reordered(select) != select.relations:
        return Unbounded(f"As it is written, {text}", relation.table.name, tuple(names), ())
    reasons = of_stop(order, place)
    told = "; ".join(why for why, _ in reasons)
    causes = [cause for _, cause in reasons]
    if not select.stops:
        text += " Without LIMIT and PAGINATE it needs one"
        text += ", and with them the query could not stop there" if reasons else ""
        causes.insert(0, NO_STOP)
    elif reasons:
        text += " Nor can the query stop there"
    text += f": {told}." if reasons else "." * (not select.stops)
    return Unbounded(text, relation.table.name, tuple(names), tuple(dict.fromkeys(causes)))
