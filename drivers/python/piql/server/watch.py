"""What a server tells of itself."""

from typing import NamedTuple

from .figures import Figures
from .log import Log


class Watch(NamedTuple):
    """Its log and its counts."""

    log: Log
    figures: Figures
