"""A dialect for the core of SQLAlchemy 1.4 and 2: create_engine("piql:///site.db"). docs/SQLALCHEMY.md tells of it.

An installed package is found by SQLAlchemy itself; from a checkout `import piql.alchemy` makes the name known.
"""

try:
    from sqlalchemy.dialects import registry
except ImportError as missing:
    raise ImportError("piql.alchemy wants SQLAlchemy 1.4 or 2: pip install 'piql[sqlalchemy]'") from missing

from .dialect import Dialect
from .refusing import NotOffered

registry.register("piql", "piql.alchemy", "Dialect")

__all__ = ["Dialect", "NotOffered"]
