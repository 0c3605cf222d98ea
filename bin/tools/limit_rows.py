"""Which limits a row of a document tells of: of the words for counts, and of the tables of limits."""

# The limits of each word for a count.
OF_WORDS: dict[str, tuple[str, ...]] = {
    "cardinality": ("n of `CARDINALITY LIMIT n`",),
    "columns": ("columns of a table",),
    "counters": ("counters of a table",),
    "definitions": ("definitions",),
    "foreign": ("foreign keys of a table",),
    "indexes": ("indexes of a table",),
    "key": ("columns of a key",),
    "limit_columns": ("columns of a limit", "columns of a counter"),
    "limits": ("limits of a table",),
    "order": ("columns of ORDER BY",),
    "predicates": ("predicates of a query", "conditions of a write"),
    "relations": ("relations of a query",),
    "selected": ("selected columns",),
    "stop": ("k of LIMIT and PAGINATE",),
    "tables": ("tables",),
    "text": ("n of `TEXT(n)`",),
    "writes": ("writes of a batch",),
}


def same(*limits: str) -> dict[str, tuple[str, ...]]:
    """The rows that are called as their limits are."""
    return {limit: (limit,) for limit in limits}


BOUND = ("operations of a bound", "entries of a bound")
# The tables of limits, and the limits of each row. The numbers of a row without limits stay as they are written.
OF_ROWS: dict[tuple[str, str], dict[str, tuple[str, ...]]] = {
    ("docs/LANGUAGE.md", "| What | Limit |"): {
        "definitions: tables, queries, added columns and counters together": ("definitions",),
        "columns of a table, added ones among them": ("columns of a table",),
        "columns of a primary key, of a limit, of a counter": (
            "columns of a key",
            "columns of a limit",
            "columns of a counter",
        ),
        "limits of a table, foreign keys of a table, counters of a table": (
            "limits of a table",
            "foreign keys of a table",
            "counters of a table",
        ),
        "secondary indexes of a table": ("indexes of a table",),
        "predicates of a query, conditions of a write": ("predicates of a query", "conditions of a write"),
        "a query's bound": BOUND,
        **same(
            "bytes of a script",
            "bytes of a statement",
            "bytes of a name",
            "tables",
            "rows of a counter's group",
            "n of `TEXT(n)`",
            "n of `CARDINALITY LIMIT n`",
            "bytes of a row's code",
            "relations of a query",
            "writes of a batch",
            "bytes of a batch's changes",
            "columns of ORDER BY",
            "selected columns",
            "k of LIMIT and PAGINATE",
            "rows over which an index is filled",
        ),
    },
    ("docs/PRODUCTION.md", "| What | At most | Then |"): {
        "definitions in the life of a file, added columns and counters among them": ("definitions", "tables"),
        **same("columns of a table", "indexes of a table", "counters of a table"),
        "rows under a limit": ("n of `CARDINALITY LIMIT n`",),
        "rows over which an index is made": ("rows over which an index is filled",),
        "a query's bound": BOUND,
        "a row's code": ("bytes of a row's code",),
        "a text": ("n of `TEXT(n)`",),
        "a statement": ("bytes of a statement",),
    },
    ("docs/HOST.md", "| What | At most |"): {
        "a request behind its length": (),
        "an answer's body": ("bytes of a host's answer",),
        "bytes of the script in one answer, of the reports in one request": ("bytes of the script in a host's answer",),
        "nodes": ("nodes of a host",),
        "keys of a GETS, ranges of a RANGES, tests of a FIRST_HELD": ("questions in a request to a host",),
        "pairs that a RANGES of more than one range may answer": ("pairs of a host's answer to several ranges",),
    },
}
