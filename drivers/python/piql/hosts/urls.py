"""The links of stores that a URL names.

    etcd://a:2379,b:2379/name             a store in a cluster of etcd, under this name
    postgresql://user@a,b/database        a store in a database of PostgreSQL, on whichever host takes writes

`?lease=S` and `?patience=S` (seconds) say how long the store stays with an engine that makes no calls, and for how long
a call may take, made again where a member doesn't answer; both are 10 where nothing is said. `?durability=two` refuses
a database that has no second server which keeps each write. All other words of a query are PostgreSQL's own.
"""

import math
import re
from typing import NamedTuple

from ..errors import InterfaceError
from .backend import Backend, Reading
from .etcd import EtcdStore
from .etcd_client import EtcdClient
from .etcd_reading import EtcdReading
from .link import HostLink, Program, ReaderLink
from .passwords import advise, shown

SCHEMES = ("etcd", "postgresql", "postgres")
SCHEME = re.compile(r"([A-Za-z][A-Za-z0-9+.-]*)://")
ETCD_PORT = 2379
ENDPOINT = re.compile(r"(?P<host>\[[0-9A-Fa-f:.]+\]|[^:@\[\]\s]+)(?::(?P<port>[0-9]{1,5}))?")
# Seconds of a lease or of a call.
SECONDS = re.compile(r"[0-9]{1,6}(?:\.[0-9]{1,6})?")
UNKNOWN = "{url} names no store: there are files, unix:SOCKET, etcd://.. and postgresql://.."
NO_ETCD = "a store in etcd is named etcd://HOST:PORT,HOST:PORT/NAME, and not {url}"
NO_SECONDS = "{url}: {name} is a number of seconds from 1 on"
NO_DURABILITY = "{url}: durability=two is the one word for it, and PostgreSQL's; etcd has each write on most members"
TWICE = "{url}: {name} stands there twice"


class Options(NamedTuple):
    """What a URL sets of the store itself: seconds, and whether each write has to be on two servers."""

    lease: float = 10.0
    patience: float = 10.0
    is_durable: bool = False


def is_url(target: str) -> bool:
    """Whether a text names a store behind a host, and no file. A URL of another kind is refused."""
    found = SCHEME.match(target)
    if found is not None and found[1] not in SCHEMES:
        raise InterfaceError(UNKNOWN.format(url=shown(target)))
    return found is not None


def read_seconds(url: str, name: str, text: str) -> float:
    """A number of seconds from 1 on."""
    if not SECONDS.fullmatch(text) or float(text) < 1:
        raise InterfaceError(NO_SECONDS.format(url=shown(url), name=name))
    return float(text)


def options_of(url: str) -> tuple[str, Options]:
    """A URL without what it sets of the store itself, and this. Its other words stay as they are written."""
    bare, mark, query = url.partition("?")
    rest: list[str] = []
    found: dict[str, float | bool] = {}
    for word in query.split("&") if mark else []:
        name, _, text = word.partition("=")
        if name in found:
            raise InterfaceError(TWICE.format(url=shown(url), name=name))
        if name in ("lease", "patience"):
            found[name] = read_seconds(url, name, text)
        elif name == "durability":
            found[name] = True
            if text != "two" or bare.startswith("etcd:"):
                raise InterfaceError(NO_DURABILITY.format(url=shown(url)))
        else:
            rest.append(word)
    is_durable = bool(found.pop("durability", False))
    return bare + ("?" + "&".join(rest) if rest else ""), Options(**found, is_durable=is_durable)


def options_within(url: str, seconds: float) -> tuple[str, Options]:
    """The same for a caller who waits so long for a call."""
    bare, options = options_of(url)
    return bare, options._replace(patience=min(options.patience, seconds))


def etcd_parts(url: str) -> tuple[list[str], str]:
    """The endpoints and the name of a URL of etcd."""
    places, _, name = url.partition("://")[2].partition("/")
    found = [ENDPOINT.fullmatch(place) for place in places.split(",")]
    name = name.removesuffix("/")
    # A name with a slash could lie within another store.
    if not all(found) or not re.fullmatch(r"[^/?#]+", name):
        raise InterfaceError(NO_ETCD.format(url=shown(url)))
    return [f"{at['host']}:{at['port'] or ETCD_PORT}" for at in found if at], name


def etcd_client(endpoints: list[str], options: Options) -> EtcdClient:
    """A client that goes on to the next member long before its patience is over."""
    return EtcdClient(endpoints, min(2.0, options.patience / 2))


def open_store(url: str, seconds: float = math.inf) -> Backend:
    """The backend of an engine that has the store for itself. A call takes at most so many seconds."""
    bare, options = options_within(url, seconds)
    advise(url)
    if bare.startswith("etcd:"):
        endpoints, name = etcd_parts(bare)
        return EtcdStore(etcd_client(endpoints, options), name, options.lease, options.patience)
    from .postgres import PostgresStore

    return PostgresStore(bare, options.lease, options.patience, options.is_durable)


def open_reading(url: str, seconds: float = math.inf) -> Reading:
    """The backend of an engine that only reads. A call takes at most so many seconds."""
    bare, options = options_within(url, seconds)
    advise(url)
    if bare.startswith("etcd:"):
        endpoints, name = etcd_parts(bare)
        return EtcdReading(etcd_client(endpoints, options), name, options.patience)
    from .postgres_reading import PostgresReading

    return PostgresReading(bare, options.patience)


def open_link(
    url: str, program: Program = None, timeout: float = 5.0, seconds: float = 60.0, reader: bool = False
) -> HostLink:
    """The link of a connection to the store that a URL names. Its messages have no password."""
    if reader:
        return ReaderLink(shown(url), open_reading(url, seconds), program, timeout, seconds)
    return HostLink(shown(url), open_store(url, seconds), program, timeout, seconds)
