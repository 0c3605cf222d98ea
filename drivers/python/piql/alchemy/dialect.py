"""The dialect: how SQLAlchemy connects, sends, commits, and reads which tables there are."""

import re
import weakref
from types import ModuleType
from typing import Any

from sqlalchemy import exc, pool, types
from sqlalchemy.engine import default

import piql

from ..schema import columns_behind
from .compiler import Definitions, Names, Statements
from .held import Held

LEVEL, AT_ONCE = "READ COMMITTED", "AUTOCOMMIT"
URL = "piql:///FILE, piql:///unix:SOCKET, piql:///:memory:, or piql://?store=URL of a store in a cluster"
TRUTHS = {"true": True, "false": False}
OPTIONS = {"prepare": bool, "error_on_missing": bool, "timeout": float, "step": float, "index_rows": int}
# What SQLAlchemy 1.4 commits by itself, where no transaction was begun.
WRITES = re.compile(r"\s*(?:INSERT|UPDATE|DELETE|CREATE|ALTER|PREPARE)\b", re.IGNORECASE)
TYPES = {"INT": types.BigInteger, "BOOL": types.Boolean, "TEXT": types.String}


class OnePool(pool.QueuePool):
    """One connection, for which others wait: a file, a store in memory and that of a cluster have one at a time."""

    def __init__(self, creator: Any, pool_size: int = 1, max_overflow: int = 0, **more: Any) -> None:
        super().__init__(creator, pool_size=1, max_overflow=0, **more)


def raw(connection: Any) -> piql.Connection:
    """The driver's connection of what the pool or an engine has."""
    found = connection
    while not isinstance(found, piql.Connection):
        found = getattr(found, "dbapi_connection", None) or found.connection
    return found


def option(name: str, text: str) -> object:
    """An option of the URL."""
    kind = OPTIONS.get(name)
    try:
        return TRUTHS[text] if kind is bool else (float if kind is float else int)(text) if kind else {}[name]
    except (KeyError, ValueError) as error:
        raise exc.ArgumentError(f"{name}={text} is no option; there are {', '.join(OPTIONS)}, and store") from error


class Context(default.DefaultExecutionContext):
    """One statement at work."""

    def should_autocommit_text(self, statement: str) -> bool:
        """Whether SQLAlchemy 1.4 commits behind a text."""
        return WRITES.match(statement) is not None


class Dialect(default.DefaultDialect):
    """SQLAlchemy over the driver."""

    name = driver = "piql"
    supports_statement_cache = True
    default_paramstyle = "qmark"
    statement_compiler = Statements
    ddl_compiler = Definitions
    preparer = Names
    execution_ctx_cls = Context
    max_identifier_length = 32
    supports_native_boolean = True
    supports_simple_order_by_label = False
    supports_default_values = supports_empty_insert = supports_multivalues_insert = False
    supports_sane_rowcount = supports_sane_multi_rowcount = False
    supports_alter = supports_sequences = postfetch_lastrowid = False
    # Those of SQLAlchemy 2.
    insert_returning = update_returning = delete_returning = use_insertmanyvalues = False
    insert_executemany_returning = False

    def __init__(self, **more: Any) -> None:
        super().__init__(**more)
        self.held: "weakref.WeakKeyDictionary[piql.Connection, Held]" = weakref.WeakKeyDictionary()

    @classmethod
    def dbapi(cls) -> ModuleType:
        """The driver, for SQLAlchemy 1.4."""
        return piql

    @classmethod
    def import_dbapi(cls) -> ModuleType:
        """The driver, for SQLAlchemy 2."""
        return piql

    @classmethod
    def get_pool_class(cls, url: Any) -> type[pool.Pool]:
        """Many connections to a server, and one to all else."""
        return pool.QueuePool if store_of(url).startswith("unix:") else OnePool

    def create_connect_args(self, url: Any) -> tuple[list[object], dict[str, object]]:
        """What the driver's connect gets."""
        if url.host or url.username or url.port:
            raise exc.ArgumentError(f"the URL is {URL}")
        given = {name: option(name, text) for name, text in url.query.items() if name != "store"}
        return [store_of(url)], given

    def of(self, connection: Any) -> Held:
        """What a connection holds."""
        return self.held.setdefault(raw(connection), Held())

    def do_execute(self, cursor: Any, statement: str, parameters: Any, context: Any = None) -> None:
        """Makes a statement, or holds it until the commit."""
        self.of(cursor.connection).execute(cursor, statement, parameters)

    def do_execute_no_params(self, cursor: Any, statement: str, context: Any = None) -> None:
        """The same without values."""
        self.of(cursor.connection).execute(cursor, statement, ())

    def do_executemany(self, cursor: Any, statement: str, parameters: Any, context: Any = None) -> None:
        """The same for several lists of values."""
        self.of(cursor.connection).execute_many(cursor, statement, parameters)

    def do_begin(self, dbapi_connection: Any) -> None:
        """Nothing is held yet."""
        self.of(dbapi_connection).drop()

    def do_commit(self, dbapi_connection: Any) -> None:
        """Makes what is held."""
        self.of(dbapi_connection).commit(raw(dbapi_connection))

    def do_rollback(self, dbapi_connection: Any) -> None:
        """Drops what is held."""
        self.of(dbapi_connection).drop()

    def do_savepoint(self, connection: Any, name: str) -> None:
        """Refused."""
        raise piql.NotSupportedError("there are no savepoints: a transaction's writes are made by its commit")

    def do_ping(self, dbapi_connection: Any) -> bool:
        """Whether the store answers."""
        raw(dbapi_connection).execute("SHOW")
        return True

    def is_disconnect(self, e: Any, connection: Any, cursor: Any) -> bool:
        """Whether the connection can't be used again."""
        return isinstance(e, (piql.StoreGone, piql.InterfaceError))

    def get_isolation_level_values(self, dbapi_connection: Any) -> list[str]:
        """One that holds writes until their commit, and one that doesn't."""
        return [LEVEL, AT_ONCE]

    def get_default_isolation_level(self, dbapi_conn: Any) -> str:
        """The first one."""
        return LEVEL

    def get_isolation_level(self, dbapi_connection: Any) -> str:
        """That of a connection."""
        return AT_ONCE if self.of(dbapi_connection).is_at_once else LEVEL

    def set_isolation_level(self, dbapi_connection: Any, level: str) -> None:
        """Sets that of a connection."""
        found = level.replace("_", " ").upper()
        if found not in (LEVEL, AT_ONCE):
            raise exc.ArgumentError(f"the isolation levels are {LEVEL} and {AT_ONCE}")
        self.of(dbapi_connection).is_at_once = found == AT_ONCE

    # Which tables there are

    def tables(self, connection: Any) -> dict[str, Any]:
        """The tables by their names."""
        return raw(connection.connection).refresh().tables()

    def table(self, connection: Any, name: str) -> Any:
        """The table of a name."""
        found = self.tables(connection).get(name.lower())
        if found is None:
            raise exc.NoSuchTableError(name)
        return found

    def has_table(self, connection: Any, table_name: str, schema: str | None = None, **kw: Any) -> bool:
        """Whether there is one of a name."""
        return table_name.lower() in self.tables(connection)

    def get_table_names(self, connection: Any, schema: str | None = None, **kw: Any) -> list[str]:
        """Their names."""
        return list(self.tables(connection))

    def get_columns(self, connection: Any, table_name: str, schema: str | None = None, **kw: Any) -> list[Any]:
        """The columns of a table."""
        return [
            {
                "name": it.name,
                "type": types.String(it.size) if it.size else TYPES[it.type](),
                "nullable": it.nullable,
                "default": None,
                "autoincrement": False,
            }
            for it in self.table(connection, table_name).columns
        ]

    def get_pk_constraint(self, connection: Any, table_name: str, schema: str | None = None, **kw: Any) -> Any:
        """Its key."""
        return {"constrained_columns": list(self.table(connection, table_name).key), "name": None}

    def get_foreign_keys(self, connection: Any, table_name: str, schema: str | None = None, **kw: Any) -> list[Any]:
        """Its foreign keys."""
        tables = self.tables(connection)
        return [
            {
                "name": None,
                "constrained_columns": list(names),
                "referred_schema": None,
                "referred_table": parent,
                "referred_columns": list(tables[parent].key),
                "options": {},
            }
            for names, parent in columns_behind(self.table(connection, table_name), "FOREIGN", "KEY")
        ]

    def none(self, connection: Any, *names: Any, **kw: Any) -> list[Any]:
        """What there isn't."""
        return []

    get_view_names = get_schema_names = get_indexes = get_unique_constraints = get_check_constraints = none


def store_of(url: Any) -> str:
    """The store that a URL names, as piql.connect takes it."""
    found = url.query.get("store") or url.database or ":memory:"
    if not isinstance(found, str):
        raise exc.ArgumentError(f"the URL is {URL}")
    return found


__all__ = ["Dialect"]
