"""Whether a server of PostgreSQL keeps what it tells, as it is configured."""

from typing import NamedTuple

ASKED = "SELECT " + ", ".join(
    f"current_setting('{name}')" for name in ("fsync", "synchronous_commit", "synchronous_standby_names")
)
LOSES = "writes that were told can be lost by this PostgreSQL: {why}"
REFUSED = "durability=two wants each write on two servers: {why}"


class Durability(NamedTuple):
    """What the server says of itself."""

    fsync: str
    synchronous_commit: str
    standbys: str


def weaknesses(found: Durability) -> list[str]:
    """What may lose a write that was told, if anything."""
    told = []
    if found.fsync == "off":
        told.append("fsync is off, so a power cut takes them")
    if found.synchronous_commit == "off":
        told.append("synchronous_commit is off, so the end of the server takes the last ones")
    if not found.standbys.strip() or found.synchronous_commit in ("off", "local"):
        told.append("no standby has them before they are told, so one that is promoted may lack the last ones")
    return told
