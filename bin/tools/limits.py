"""The limits: where the code and the definitions declare each, and whether they declare the same number."""

import re
from collections.abc import Iterator
from typing import NamedTuple

from tools.declared import Absent, Declared, number_of
from tools.house import sources
from tools.repository import Repository

TABLES, COUNTERS = "pq_definitions/table_checks.rt", "pq_definitions/counter_checks.rt"
QUERY = "pq_query_read/query.rt"
SCRIPTS = "drivers/python/piql/scripts.py"
DEFINITIONS, RESOLVING = "pq_schema Definitions", "pq_query_read Resolving"
SOUND, RESOLVED = "pq_schema Sound", "pq_schema Resolved"
# A constant whose comment says that it is a limit, and a definition whose name does.
CONSTANT = re.compile(
    r"^ *///[^\n]*(?:greatest number of|The most|may have)[^\n]*\n *(?:pub(?:\([a-z]+\))? )?const (\w+): \w+ = [\d_]+;",
    re.MULTILINE,
)
DEFINITION = re.compile(r"^(\w*(?:limit|most)\w*) = \d+$", re.MULTILINE)


class Limit(NamedTuple):
    """A limit, by what it is the greatest number of, with the places where it is declared."""

    what: str
    places: tuple[Declared, ...]


def limit(what: str, *places: Declared) -> Limit:
    return Limit(what, places)


LIMITS = (
    limit(
        "bytes of a script",
        Declared("pq_console/reading.rt", "LIMIT"),
        Declared("pq_console Reading", "script_limit"),
        Declared(SCRIPTS, "SCRIPT_BYTES"),
    ),
    limit(
        "bytes of a statement",
        Declared("pq_statement/requests.rt", "STATEMENT_BYTES"),
        Declared("pq_text/splitter.rt", "is_above_limit", "kept > {}"),
        Declared("pq_text/splitter.rt", "is_above_limit", "more > {} - kept"),
        Declared("pq_client_shell/writes.rt", "STATEMENT_BYTES"),
        Declared("pq_text Pieces", "piece_limit"),
        Declared("pq_statement Actions", "asked_text", "(length text) {}"),
        Declared("pq_client_shell Writes", "text_written", "(length text) {}"),
        Declared(SCRIPTS, "STATEMENT_BYTES"),
    ),
    limit(
        "bytes of a name",
        Declared("pq_names/names.rt", "NAME_BYTES"),
        Declared("pq_schema Names", "is_name", "(length name) {}"),
    ),
    limit(
        "tables",
        Declared(TABLES, "TABLES"),
        Declared(DEFINITIONS, "name_refusal", "{} (length schema.tables)"),
        Declared("pq_schema Schema", "IsSmall", "length schema.tables ≤ {}"),
    ),
    limit(
        "definitions",
        Declared(TABLES, "DEFINITIONS"),
        Declared(DEFINITIONS, "room_refusal", "{} (length schema.definitions)"),
        Declared("pq_schema Schema", "IsSmall", "length schema.definitions ≤ {}"),
    ),
    limit(
        "columns of a table",
        Declared(TABLES, "COLUMNS"),
        Declared("pq_fk_join/join.rt", "MOST_COLUMNS"),
        Declared(DEFINITIONS, "counts_refusal", "(length def.columns) {}"),
        Declared(DEFINITIONS, "added_refusal", "{} (length table.columns)"),
        Declared("pq_row_code StoredRow", "stored_len", "nat_lt {} (length row)"),
    ),
    limit(
        "columns of a key",
        Declared(TABLES, "check_key", "key.len(), {}"),
        Declared(DEFINITIONS, "key_refusal", "(length key) {}"),
        Declared(SOUND, "AreKeyColumns", "length cols ≤ {}"),
    ),
    limit(
        "columns of a limit",
        Declared(TABLES, "check_limit", "limit.cols.items().len(), {}"),
        Declared(DEFINITIONS, "limit_refusal", "(length limit.cols) {}"),
    ),
    limit(
        "columns of a counter",
        Declared(COUNTERS, "check_counted", "def.cols.items().len(), {}"),
        Declared(DEFINITIONS, "counted_refusal", "(length def.cols) {}"),
    ),
    limit(
        "limits of a table",
        Declared(TABLES, "check_counts", "{} < def.limits."),
        Declared(DEFINITIONS, "counts_refusal", "{} (length def.limits)"),
    ),
    limit(
        "foreign keys of a table",
        Declared(TABLES, "check_counts", "{} < def.foreign."),
        Declared(DEFINITIONS, "counts_refusal", "{} (length def.foreign)"),
    ),
    limit(
        "counters of a table",
        Declared(COUNTERS, "COUNTERS"),
        Declared(DEFINITIONS, "counted_refusal", "nat_le {} (length (counters_of"),
    ),
    limit(
        "rows of a counter's group",
        Declared("pq_tallies/codes.rt", "MOST_COUNT"),
        Declared("pq_tallies Counters", "most_count"),
    ),
    limit(
        "indexes of a table",
        Declared("pq_compile/wanting.rt", "INDEXES"),
        Declared("pq_schema Wanted", "index_at", "nat_le {} (length table.indexes)"),
    ),
    limit(
        "n of `TEXT(n)`",
        Declared(TABLES, "text_size", "size <= {}"),
        Declared(DEFINITIONS, "text_size", "nat_le n {}"),
        Declared(SOUND, "IsSized", "(n ≤ {})"),
        Declared("bin/tools/pointing.py", "NUMBERS", '(("TEXT",), 2, {})'),
    ),
    limit(
        "bytes of a text that is compared",
        Declared("pq_schema/query.rt", "TEXT_BYTES"),
        Declared(RESOLVED, "param_of", "type.Text {}"),
    ),
    limit(
        "n of `CARDINALITY LIMIT n`",
        Declared(TABLES, "cardinality", "n <= {}"),
        Declared(DEFINITIONS, "cardinality", "nat_le n {}"),
        Declared(SOUND, "IsMadeLimit", "limit.n ≤ {}"),
        Declared("bin/tools/pointing.py", "NUMBERS", '(("LIMIT",), 1, {})'),
    ),
    limit(
        "bytes of a row's code",
        Declared("pq_index_keep/inserts.rt", "check_length", "if {} < length"),
        Declared("pq_index_keep/update.rt", "long_refusal", "if {} < length"),
        Declared("pq_clients/reading.rt", "taking_short", "if {} < length"),
        Declared("pq_index_keep Checking", "long_refusal", "nat_lt {} (length"),
        Declared("pq_index_keep Effects", "update_refusal", "nat_lt {} (length"),
    ),
    limit(
        "relations of a query",
        Declared(QUERY, "check_counts", "def.relations.items().len(), {}"),
        Declared(RESOLVING, "clause_counts_refusal", "(length def.relations) {}"),
        Declared(RESOLVED, "IsResolved", "length query.relations ≤ {}"),
    ),
    limit(
        "predicates of a query",
        Declared(QUERY, "check_counts", "{} < def.preds."),
        Declared(RESOLVING, "clause_counts_refusal", "{} (length def.preds)"),
        Declared(RESOLVED, "IsResolved", "length query.preds ≤ {}"),
    ),
    limit(
        "parameters of a query",
        Declared("pq_query_read/conditions.rt", "PARAMS"),
        Declared("pq_query_read Parameters", "param_number", "nat_le n {}"),
    ),
    limit(
        "conditions of a write",
        Declared("pq_index_keep/check.rt", "CONDITIONS"),
        Declared("pq_index_keep Checking", "unless_many", "nat_lt {} (length conds)"),
    ),
    limit(
        "writes of a batch",
        Declared("pq_statement/requests.rt", "BATCH_WRITES"),
        Declared("pq_statement Batches", "unless_many", "(length defs) {}"),
    ),
    limit(
        "bytes of a batch's changes",
        Declared("pq_batch/plan.rt", "MOST_BYTES"),
        Declared("pq_batch Batches", "unless_long", "(changes_length batched.changes) {}"),
    ),
    limit(
        "columns of ORDER BY",
        Declared(QUERY, "check_counts", "{} < def.order."),
        Declared(RESOLVING, "clause_counts_refusal", "{} (length def.order)"),
        Declared(RESOLVED, "IsResolved", "length query.order ≤ {}"),
    ),
    limit(
        "selected columns",
        Declared(QUERY, "is_outside_selected", "refs.items().len(), {}"),
        Declared(RESOLVING, "is_outside_selected", "(length refs) {}"),
        Declared(RESOLVED, "IsResolved", "length query.select ≤ {}"),
    ),
    limit(
        "k of LIMIT and PAGINATE",
        Declared("pq_query_read/ordering.rt", "ROWS"),
        Declared(RESOLVING, "limit_size", "nat_le k {}"),
        Declared(RESOLVED, "IsResolved", "(k ≤ {})"),
        Declared("bin/tools/pointing.py", "NUMBERS", '(("LIMIT", "PAGINATE"), 1, {})'),
    ),
    limit(
        "operations of a bound",
        Declared("pq_compile/compiler.rt", "is_large", "{} < bound.ops"),
        Declared("pq_schema Wanted", "is_large", "nat_lt {} bound.ops"),
    ),
    limit(
        "entries of a bound",
        Declared("pq_compile/compiler.rt", "is_large", "{} < bound.entries"),
        Declared("pq_schema Wanted", "is_large", "nat_lt {} bound.entries"),
    ),
    limit(
        "rows over which an index is filled",
        Declared("pq_builds/count.rt", "MOST_ROWS"),
        Declared("pq_builds Bounds", "build_bound", "nat_le rows {}"),
        Declared("pq_reports Step", "crowding_refusal", "(length (rows_of new.table m.rows)) {}"),
    ),
    limit(
        "rows of a range that fills an index",
        Declared("pq_builds/fill.rt", "ROWS"),
        Declared("pq_builds Stages", "build_ops", "count / {}"),
    ),
    limit(
        "bytes of a definition's text",
        Declared("pq_opening/opening.rt", "TEXT_BYTES"),
        Declared("pq_opening Opening", "text_adds", "(length text) {}"),
        Declared("pq_text Tokens", "text_limit"),
    ),
    limit(
        "users of a generated script",
        Declared("pq_fill/words.rt", "USERS"),
        Declared("pq_fill Words", "IsForm", "(n ≤ {})"),
    ),
    limit(
        "clients of a run",
        Declared("pq_client_shell/words.rt", "CLIENTS"),
        Declared("pq_client_shell Words", "AreWords", "(k ≤ {})"),
    ),
    limit(
        "bytes of a request's body to a host",
        Declared("pq_host/request.rt", "MOST"),
    ),
    limit("bytes of a host's answer", Declared("pq_host/link.rt", "BODY_MOST")),
    limit("bytes of the script in a host's answer", Declared("pq_host/request.rt", "PIECE")),
    limit("nodes of a host", Declared("pq_host/answer.rt", "read_keys", "number > {}")),
    limit(
        "questions in a request to a host",
        Declared("pq_host/rounds.rt", "ASKS"),
        Declared("pq_host Ends", "most_asked", "true = {}"),
    ),
    limit(
        "pairs of a host's answer to several ranges",
        Declared("pq_host/rounds.rt", "PAIRS"),
        Declared("pq_host Ends", "most_ranges", "({} / limit)"),
    ),
)


def number_of_limit(repository: Repository, what: str) -> int:
    """The number of a limit, as the first of its places has it."""
    return next(number_of(repository, it.places[0]) for it in LIMITS if it.what == what)


def flaws_of_limit(repository: Repository, it: Limit) -> Iterator[str]:
    """The places of a limit that have no number, or another one than the first has."""
    found: list[tuple[Declared, int]] = []
    for place in it.places:
        try:
            found.append((place, number_of(repository, place)))
        except Absent as absent:
            yield f"{it.what}: {absent}"
    for place, number in found[1:]:
        if number != found[0][1]:
            first, own = found[0][0], place
            yield f"{it.what}: {own.item} of {own.place} has {number:,}, {first.item} of {first.place} {found[0][1]:,}"


def unlisted(repository: Repository) -> Iterator[str]:
    """The constants and definitions that call themselves limits, and that no limit here has."""
    known = {place.path(repository).as_posix() + " " + place.item for it in LIMITS for place in it.places}
    modules = [path for name in repository.uses for path in sorted((repository.folder(name) / "specs").rglob("*.antt"))]
    for pattern, paths in ((CONSTANT, sources(repository)), (DEFINITION, modules)):
        for path in paths:
            for name in pattern.findall(path.read_text()):
                if f"{path.as_posix()} {name}" not in known:
                    yield f"{path.relative_to(repository.top)}: {name} is a limit that bin/tools/limits.py has not"


def flaws_of(repository: Repository) -> Iterator[str]:
    """Where the sources have no number of a limit, or not the same one everywhere, or a limit that isn't here."""
    for it in LIMITS:
        yield from flaws_of_limit(repository, it)
    yield from unlisted(repository)
