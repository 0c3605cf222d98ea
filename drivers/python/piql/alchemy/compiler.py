"""Writes the statements of SQLAlchemy's core as the grammar has them, and refuses what it doesn't have."""

from collections.abc import Iterable, Iterator
from typing import Any, NoReturn

from sqlalchemy.sql import compiler, elements, operators

from ..scripts import KEYWORDS, NAME, NAME_BYTES
from .refusing import refuse, refuse_operator

COMPARISONS: dict[Any, str] = {
    operators.eq: "=",
    operators.ne: "<>",
    operators.lt: "<",
    operators.le: "<=",
    operators.gt: ">",
    operators.ge: ">=",
}
# What SQLAlchemy hands down for its own warnings.
LINTERS = ("eager_grouping", "from_linter", "lateral_from_linter", "enclosing_lateral")


def refusing(what: str) -> Any:
    """A method that refuses."""

    def method(*_given: object, **_named: object) -> NoReturn:
        refuse(what)

    return method


def parts(criteria: Iterable[Any]) -> Iterator[Any]:
    """The comparisons that AND joins."""
    for it in criteria:
        if isinstance(it, elements.Grouping):
            yield from parts([it.element])
        elif getattr(it, "operator", None) is operators.and_ and hasattr(it, "clauses"):
            yield from parts(it.clauses)
        elif isinstance(it, elements.ColumnClause):
            # A column that has to be true.
            yield it.self_group(against=operators.and_)
        else:
            yield it


class Names(compiler.IdentifierPreparer):
    """Names as they are: the language has no quotes round them."""

    def quote(self, ident: str, force: Any = None) -> str:
        """The name; one that isn't the language's is refused."""
        name = str(ident)
        if NAME.fullmatch(name) is None or len(name) > NAME_BYTES or name.upper() in KEYWORDS:
            refuse("name", name=repr(name))
        return name

    def quote_identifier(self, value: str) -> str:
        """The same."""
        return self.quote(value)

    def quote_schema(self, schema: str, force: Any = None) -> str:
        """Refused."""
        refuse("schema")


class Statements(compiler.SQLCompiler):
    """SELECT, INSERT, UPDATE and DELETE. A text is sent as it is."""

    # Whether columns stand without their table, as in UPDATE and DELETE; and the conditions of the joins of a SELECT.
    is_bare = False
    conditions: tuple[Any, ...] = ()

    def visit_select(self, select_stmt: Any, *more: Any, **kw: Any) -> str:
        """A SELECT that stands by itself."""
        if self.stack:
            refuse("subquery")
        if select_stmt._offset_clause is not None:
            refuse("offset")
        if select_stmt._prefixes or select_stmt._suffixes or select_stmt._hints or select_stmt._statement_hints:
            refuse("prefix")
        if select_stmt._for_update_arg is not None:
            refuse("lock")
        if select_stmt._distinct or select_stmt._group_by_clauses or select_stmt._having_criteria:
            refuse("distinct")
        return str(super().visit_select(select_stmt, *more, **kw))

    def _compose_select_body(
        self, text: str, select: Any, state: Any, columns: list[str], froms: list[Any], *more: Any
    ) -> str:
        """What stands behind SELECT. The conditions of joins stand behind WHERE."""
        kwargs = more[-1]
        if not froms:
            refuse("operator")
        self.conditions = ()
        relations = ", ".join(it._compiler_dispatch(self, asfrom=True, **kwargs) for it in froms)
        text += f"{', '.join(columns)} FROM {relations}"
        criteria = list(parts([*self.conditions, *select._where_criteria]))
        if criteria:
            text += " WHERE " + " AND ".join(it._compiler_dispatch(self, **kwargs) for it in criteria)
        if select._order_by_clauses:
            text += self.order_by_clause(select, **kwargs)
        return text + (self.limit_clause(select, **kwargs) if select._has_row_limiting_clause else "")

    def limit_clause(self, select: Any, **kw: Any) -> str:
        """A LIMIT, whose number stands in the statement: each number is a query of its own."""
        limit = select._limit_clause
        if not isinstance(limit, elements.BindParameter):
            refuse("limit")
        return " LIMIT " + self.process(limit.render_literal_execute(), **kw)

    def visit_join(self, join: Any, asfrom: bool = False, **kw: Any) -> str:
        """A join, whose condition stands behind WHERE."""
        if join.full or join.isouter:
            refuse("join")
        left, right = (it._compiler_dispatch(self, asfrom=True, **kw) for it in (join.left, join.right))
        self.conditions += tuple(parts([join.onclause]))
        return f"{left} JOIN {right}"

    def visit_column(self, column: Any, *more: Any, **kw: Any) -> str:
        """A column, with its table unless the statement has only one."""
        if self.is_bare:
            kw["include_table"] = False
        return str(super().visit_column(column, *more, **kw))

    def visit_label(self, label: Any, *more: Any, within_columns_clause: bool = False, **kw: Any) -> str:
        """The column alone: its name in the answer is SQLAlchemy's own affair."""
        if not within_columns_clause:
            kw.pop("render_label_as_label", None)
            return str(label.element._compiler_dispatch(self, **kw))
        text = str(super().visit_label(label, *more, within_columns_clause=True, **kw))
        return text.rpartition(" AS ")[0] or text

    def visit_grouping(self, grouping: Any, asfrom: bool = False, **kw: Any) -> str:
        """What stands in parentheses, which only AND needs here, and so nothing does."""
        return str(grouping.element._compiler_dispatch(self, **kw))

    def visit_clauselist(self, clauselist: Any, **kw: Any) -> str:
        """A list, or comparisons that AND joins."""
        if clauselist.operator is operators.or_:
            refuse("or")
        return str(super().visit_clauselist(clauselist, **kw))

    def visit_expression_clauselist(self, clauselist: Any, **kw: Any) -> str:
        """The same in SQLAlchemy 2."""
        if clauselist.operator is not operators.and_:
            refuse_operator(clauselist.operator)
        return " AND ".join(it._compiler_dispatch(self, **kw) for it in parts([clauselist]))

    def visit_binary(self, binary: Any, override_operator: Any = None, **kw: Any) -> str:
        """A comparison."""
        for name in LINTERS:
            kw.pop(name, None)
        operator = override_operator or binary.operator
        if operator is operators.between_op:
            return self.between(binary, **kw)
        is_truth = isinstance(binary.right, (elements.True_, elements.False_))
        if operator is operators.is_ and not is_truth:
            if not isinstance(binary.right, elements.Null):
                refuse("operator")
            return f"{self.process(binary.left, **kw)} IS NULL"
        if operator is not operators.is_ and operator not in COMPARISONS:
            refuse_operator(operator)
        return f"{self.process(binary.left, **kw)} {COMPARISONS.get(operator, '=')} {self.process(binary.right, **kw)}"

    def between(self, binary: Any, **kw: Any) -> str:
        """A range, as two comparisons."""
        low, high = (self.process(it, **kw) for it in binary.right.clauses)
        left = self.process(binary.left, **kw)
        return f"{left} >= {low} AND {left} <= {high}"

    def visit_unary(self, unary: Any, **kw: Any) -> str:
        """A direction of ORDER BY, or a column that has to be true or false."""
        if unary.operator is operators.is_true:
            return f"{self.process(unary.element, **kw)} = TRUE"
        if unary.operator is operators.is_false:
            return f"{self.process(unary.element, **kw)} = FALSE"
        if unary.operator is not None:
            refuse_operator(unary.operator)
        if unary.modifier not in (operators.asc_op, operators.desc_op):
            refuse("nulls")
        return str(super().visit_unary(unary, **kw))

    def visit_true(self, _: Any, **kw: Any) -> str:
        """The constant."""
        return "TRUE"

    def visit_false(self, _: Any, **kw: Any) -> str:
        """The constant."""
        return "FALSE"

    def visit_insert(self, insert_stmt: Any, *more: Any, **kw: Any) -> str:
        """One row."""
        if insert_stmt.select is not None:
            refuse("subquery")
        if insert_stmt._multi_values:
            refuse("rows")
        self.check_write(insert_stmt)
        return str(super().visit_insert(insert_stmt, *more, **kw))

    def visit_update(self, update_stmt: Any, *more: Any, **kw: Any) -> str:
        """One row by its whole key."""
        self.check_keyed(update_stmt, "update")
        return str(super().visit_update(update_stmt, *more, **kw))

    def visit_delete(self, delete_stmt: Any, *more: Any, **kw: Any) -> str:
        """One row by its whole key."""
        self.check_keyed(delete_stmt, "delete")
        return str(super().visit_delete(delete_stmt, *more, **kw))

    def check_write(self, write: Any) -> None:
        """Refuses what no write has."""
        if write._returning:
            refuse("returning")
        if write._prefixes or write._hints:
            refuse("prefix")

    def check_keyed(self, write: Any, what: str) -> None:
        """Refuses a write whose WHERE isn't the key; where the table has told none, the engine does."""
        self.check_write(write)
        self.is_bare = True
        names = [self.fixed_name(it, what) for it in parts(write._where_criteria)]
        key = sorted(it.name.lower() for it in write.table.primary_key)
        if not names or key and sorted(names) != key:
            refuse(what)

    def fixed_name(self, criterion: Any, what: str) -> str:
        """The column that a comparison ties to a value."""
        is_equal = getattr(criterion, "operator", None) is operators.eq
        values = (elements.BindParameter, elements.True_, elements.False_)
        if not is_equal or not isinstance(criterion.right, values) or not hasattr(criterion.left, "name"):
            refuse(what)
        return str(criterion.left.name).lower()

    def default_from(self) -> str:
        """Refused: each SELECT has a table."""
        refuse("operator")

    visit_compound_select = refusing("union")
    visit_cte = visit_subquery = visit_scalar_select = visit_select_statement_grouping = refusing("subquery")
    visit_function = visit_over = visit_funcfilter = visit_withingroup = refusing("function")
    visit_cast = visit_try_cast = visit_case = visit_extract = visit_tuple = visit_array = refusing("operator")
    returning_clause = refusing("returning")
    for_update_clause = refusing("lock")


class Definitions(compiler.DDLCompiler):
    """Refused: a schema is a script."""

    visit_create_table = visit_drop_table = visit_create_index = visit_drop_index = refusing("define")
    visit_add_constraint = visit_drop_constraint = visit_create_schema = visit_drop_schema = refusing("define")
    visit_create_sequence = visit_drop_sequence = visit_create_view = visit_drop_view = refusing("define")
