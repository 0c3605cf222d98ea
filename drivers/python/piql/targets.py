"""Which words name a file, where a command is for files alone."""

from .errors import InterfaceError
from .hosts.passwords import shown
from .hosts.urls import is_url
from .plain import plain_path

NO_FILE = "{name} is no file; copies, rebuilds and restores are of files, and docs/SCALING.md tells of a cluster's"


def check_files(*names: str | None) -> None:
    """Refuses what is no path, the URL of a cluster's store and the socket of a server, and tells no password."""
    for given in names:
        name = "" if given is None else plain_path(given, "a file")
        if is_url(name) or name.startswith("unix:"):
            raise InterfaceError(NO_FILE.format(name=shown(name)))
