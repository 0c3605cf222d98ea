"""The environment of an engine's process: glibc's malloc keeps more pieces at hand than it does by itself.

A page frees many pieces of one size together. glibc's list of free pieces for a thread has room for seven of a size, and
what doesn't fit there takes the long way. With room for 127 a follower's feed takes a sixth fewer instructions
(docs/PRODUCTION.md). Another C library, or another allocator that is preloaded, doesn't read the word.
"""

import os

TUNABLES = "GLIBC_TUNABLES"
NAME = "glibc.malloc.tcache_count"
KEPT = f"{NAME}=127"


def engine_environment() -> dict[str, str]:
    """This process's environment with the word for malloc, unless it has one already."""
    given = os.environ.get(TUNABLES, "")
    if NAME in given:
        return dict(os.environ)
    return {**os.environ, TUNABLES: f"{given}:{KEPT}" if given else KEPT}
