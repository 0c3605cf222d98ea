"""A site whose keys are cut over two clusters: what stands before a key in one, the rest in the other."""

from piql.connection import Connection
from piql.hosts import NodesLink
from piql.hosts.urls import open_store

FIRST = "etcd://10.0.0.1:2379,10.0.0.2:2379,10.0.0.3:2379/site"
SECOND = "postgresql://site@10.0.1.1,10.0.1.2/site"

stores = [open_store(FIRST), open_store(SECOND)]
writer = Connection(NodesLink("site", stores, [b"", b"\x02\x02"]))
