"""A site over a backend of its own."""

from backend import Pairs
from piql.connection import Connection
from piql.hosts import HostLink

connection = Connection(HostLink("my pairs", Pairs()))
