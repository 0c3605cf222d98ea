"""What a writer's store in etcd held at one revision, for engines that read beside the writer."""

from .backend import INTENT, Fault, Reading
from .etcd_client import Body, EtcdClient, Stored, coded, looking, read_found, reading
from .etcd_pairs import EtcdPairs

DEFINITIONS, ROWS = b"\1", b"\2"
# In a definition's value, the second byte says that its index is being filled.
MARKED = b"\1"
read_pin = reading(2)


class EtcdReading(EtcdPairs, Reading):
    """The pairs under NAME/kv/ at a revision. Members are asked as they come: each has every revision."""

    def __init__(self, client: EtcdClient, name: str, patience: float = 10.0) -> None:
        super().__init__(client, name, patience)

    def pin(self, least: int = 0) -> None:
        """Takes the newest quiet revision: that of now, or the one before the statement or the build at work began.

        A transaction of etcd sees all that was told before, so `least` needs no waiting.
        """
        last = {"range_end": coded(self.front + ROWS), "sort_order": "DESCEND", "sort_target": "KEY", "limit": "2"}
        parts = [looking(self.front + INTENT), looking(self.front + DEFINITIONS, **last)]
        told = self.client.post("/v3/kv/txn", {"success": parts}, read_pin, self.patience)
        if not told.is_made:
            raise Fault("a member answered no read")
        self.take(told.revision, *told.found)
        if self.revision < least:
            raise Fault(f"revision {least} was asked for, and the newest quiet one is {self.revision}")

    def take(self, now: int, intent: list[Stored], definitions: list[Stored]) -> None:
        """Takes the revision that the intent and the last two definitions, the last one first, leave quiet."""
        self.revision = now
        if definitions and definitions[0].value[1:2] == MARKED:
            self.revision = definitions[0].created - 1
            definitions = definitions[1:]
        elif intent:
            self.revision = intent[0].created - 1
        self.definitions = (definitions[0].key, definitions[0].changed) if definitions else None

    def look(self, key: bytes, **more: object) -> list[Stored]:
        """What a read at the revision tells."""
        body: Body = {"key": coded(key), "revision": str(self.revision), **more}
        return self.client.post("/v3/kv/range", body, read_found, self.patience)

    def look_all(self, parts: list[Body]) -> list[list[Stored]]:
        for part in parts:
            part["request_range"]["revision"] = str(self.revision)
        told = self.client.post("/v3/kv/txn", {"success": parts}, reading(len(parts)), self.patience)
        if not told.is_made:
            raise Fault("a member answered no read")
        return told.found

    def close(self) -> None:
        self.client.close()
