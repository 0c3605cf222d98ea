"""What is known of tables, queries and counters from the statements that were made: the columns of each."""

from piql.reports import DefinitionLine
from piql.schema import Table, read_added, read_table
from piql.scripts import Token, tokens
from piql.selected import between, cut, is_comma, relations_of
from piql.statements import normal


class Shapes:
    """The columns of the tables, queries and counters that a script has defined, by their names."""

    def __init__(self) -> None:
        self.tables: dict[str, Table] = {}
        self.queries: dict[str, list[str]] = {}

    def columns_of(self, table: str) -> list[str]:
        """The names of a table's columns, or none where it isn't known."""
        return [column.name for column in self.tables[table].columns] if table in self.tables else []

    def answered_by(self, found: list[Token]) -> list[str]:
        """The columns of the answer of a RUN, a READ or a SELECT, or none where they aren't known."""
        return self.selected(found) if found[0].is_word("SELECT") else self.queries.get(found[1].text.lower(), [])

    def add(self, text: str, definitions: list[DefinitionLine]) -> None:
        """Learns from a statement that was made, and from the definitions that a SHOW lists."""
        for each in [text, *(line.text for line in definitions)]:
            found = tokens(each)
            if found[0].is_word("CREATE") and found[1].is_word("COUNTER"):
                self.queries[found[2].text.lower()] = ["rows"]
            elif found[0].is_word("CREATE"):
                table = read_table(" ".join(map(normal, found)))
                self.tables[table.name] = table
            elif found[0].is_word("ALTER"):
                added = read_added(" ".join(map(normal, found)))
                if added.table in self.tables:
                    self.tables[added.table] = self.tables[added.table].with_column(added.column)
            elif found[0].is_word("PREPARE"):
                self.queries[found[1].text.lower()] = self.selected(found)

    def selected(self, found: list[Token]) -> list[str]:
        """The columns of a query's answer."""
        columns = between(found, "SELECT", ("FROM",))
        if columns and columns[0].is_mark("*"):
            return [column for _, table in relations_of(found) for column in self.columns_of(table)]
        return ["".join(token.text.lower() for token in part) for part in cut(columns, is_comma)]
