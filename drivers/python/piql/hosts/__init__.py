"""The engine over any store: this process answers the calls of a run of `piql_host` from a backend.

    import piql
    connection = piql.connect("etcd://10.0.0.1:2379,10.0.0.2:2379,10.0.0.3:2379/site")

To write a backend for another store, read backend.py: it has four calls. docs/HOST.md has the frames between an engine
and its host, docs/SCALING.md what each store keeps and costs.
"""

from .backend import Ask, Backend, Count, Fault, Get, Guard, Held, Pair, Range, Reading, Told, Unreachable
from .host import Host, run, serve
from .hosted import HostedEngine, Stalled
from .link import HostLink, NodesLink, ReaderLink
from .memory import MemoryStore
from .sqlite import SqliteStore
from .wire import BadRequest, Op

__all__ = [
    "Ask",
    "Backend",
    "BadRequest",
    "Count",
    "Fault",
    "Get",
    "Guard",
    "Held",
    "Host",
    "HostLink",
    "HostedEngine",
    "MemoryStore",
    "NodesLink",
    "Op",
    "Pair",
    "Range",
    "ReaderLink",
    "Reading",
    "SqliteStore",
    "Stalled",
    "Told",
    "Unreachable",
    "run",
    "serve",
]
