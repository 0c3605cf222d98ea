"""`python -m piql fence URL`: who has the store of a cluster; and with --free an owner who is dead has it no longer."""

import sys

from ..errors import InterfaceError, OperationalError
from .backend import Fault
from .fenced import FencedStore
from .passwords import shown
from .urls import is_url, open_store

NO_CLUSTER = "only the store of a cluster has a fence, and {url} names none"
NOBODY = "nobody has {url}"
HAS = "{owner} has {url}"
ASKED = """Free it only if that engine is dead for good: one that lives on makes no further call, and its statement at
hand may be made or not. Its name is host:process:number. Type it to free the store: """
KEPT = "that isn't its name, and nothing was changed"
GONE = "it has gone meanwhile, and nothing was changed"
FREED = "{url} is free"


def fence(url: str, is_freeing: bool = False) -> int:
    """Tells who has a store, and frees it where its owner's name is typed; 1 where it isn't freed."""
    if not is_url(url):
        raise InterfaceError(NO_CLUSTER.format(url=url))
    store = open_store(url)
    assert isinstance(store, FencedStore)
    try:
        return told(store, shown(url), is_freeing)
    except Fault as fault:
        raise OperationalError(f"{shown(url)}: {fault}") from fault
    finally:
        store.close()


def told(store: FencedStore, name: str, is_freeing: bool) -> int:
    """The same of a store that isn't begun."""
    owner = store.holder()
    print((HAS if owner else NOBODY).format(owner=owner, url=name), flush=True)
    if not owner or not is_freeing:
        return 0
    print(ASKED, end="", flush=True)
    if sys.stdin.readline().strip() != owner:
        print(KEPT, flush=True)
        return 1
    if not store.free(owner):
        print(GONE, flush=True)
        return 1
    print(FREED.format(url=name), flush=True)
    return 0
