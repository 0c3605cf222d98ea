"""Runs piql-serve over a store in memory in the place of the one that a URL names, for the tests of what it tells."""

import sys
from unittest import mock

import helpers  # noqa: F401 - it finds the package
from piql.hosts import MemoryStore
from piql.serve import main

with mock.patch("piql.hosts.urls.open_store", lambda *_, **__: MemoryStore()):
    sys.exit(main())
