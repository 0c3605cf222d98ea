"""What a writer's store in PostgreSQL holds at one snapshot, for engines that read beside it, also at a standby.

A snapshot is a transaction that only reads. PostgreSQL makes none of the past, so a quiet one is waited for: between
two statements of the writer that takes milliseconds. While an index is made there is none, and then the last one is
kept; so a reader has two connections. The server ends a snapshot that idles for a minute.
"""

import random
import time
from collections.abc import Sequence
from typing import Any, NamedTuple

from .backend import INTENT, Ask, Fault, Pair, Reading, Told
from .postgres_client import SESSION, Lost, PostgresClient
from .postgres_layout import (
    ASKED,
    ASKED_BEFORE,
    AT,
    AT_BEFORE,
    HAS_ORDER,
    HEAD,
    WITHIN,
    WITHIN_BEFORE,
    key_words,
    range_words,
    together_words,
    told_together,
)

BUSY_SECONDS = 0.25
READ_SESSION = SESSION + "; SET idle_in_transaction_session_timeout = '60s'"
BEGIN = "COMMIT; BEGIN ISOLATION LEVEL REPEATABLE READ READ ONLY;"
IS_BEFORE = f"COMMIT; SELECT NOT {HAS_ORDER}"
MARKED = b"\1"
AT_WORK = (
    "the writer has been at work for {seconds:g} seconds, as while an index is made;"
    " what a writer left that is gone, the next one ends by opening the store"
)


class Texts(NamedTuple):
    """The statements of a reader, by the layout of the table."""

    probe: str
    get: str
    range: str
    count: str
    together: str


def texts_of(key: str, at: str, within: str, asked: str) -> Texts:
    """The statements where keys are in the order of an expression."""
    last = f"SELECT k, v FROM piql_pairs WHERE {key} >= '\\x01' AND {key} < '\\x02' ORDER BY {key} DESC LIMIT 1"
    probe = f"""{BEGIN} SELECT revision, EXISTS (SELECT FROM piql_pairs WHERE {at}), last.k, last.v
      FROM piql_fence LEFT JOIN LATERAL ({last}) AS last ON true"""
    few = f"SELECT count(*) FROM (SELECT k {within}) AS few"
    together = f"SELECT n, k, v FROM {asked}"
    return Texts(probe, f"SELECT v FROM piql_pairs WHERE {at}", f"SELECT k, v {within}", few, together)


TEXTS = {False: texts_of(HEAD, AT, WITHIN, ASKED), True: texts_of("k", AT_BEFORE, WITHIN_BEFORE, ASKED_BEFORE)}


class PostgresReading(Reading):
    """The pairs of a database at a snapshot, on the first host that answers."""

    def __init__(self, url: str, patience: float = 10.0) -> None:
        self.client, self.spare = (PostgresClient(url, patience, READ_SESSION, "any") for _ in range(2))
        self.patience = patience
        # Whether the table is one of before, as far as is known. The next writer brings it over.
        self.is_before = True

    def pin(self, least: int = 0) -> None:
        """Takes a new snapshot that is quiet, or keeps the last one while the writer goes on being at work."""
        if self.is_before:
            # A snapshot of it is in the way of the writer that brings it over.
            self.client.close()
        begun = time.monotonic()
        until = begun + self.patience
        while True:
            why = self.try_spare(least, until)
            is_long = time.monotonic() - begun > BUSY_SECONDS
            if not why or is_long and self.revision >= least and self.is_kept():
                return
            if time.monotonic() > until:
                raise Fault(why)
            time.sleep(random.uniform(0.0005, 0.003))

    def try_spare(self, least: int, until: float) -> str:
        """Takes a snapshot on the connection that has none, and makes it the one that is read; else why not."""
        try:
            if self.is_before:
                self.is_before = self.spare.run(IS_BEFORE, until=until)[0][0]
            revision, is_at_work, last, value = self.spare.run(self.texts.probe, key_words(INTENT), until)[0]
        except Lost as lost:
            return f"no server answers: {lost}"
        if revision < least:
            return f"revision {least} was asked for, and the server has {revision}"
        if is_at_work or value is not None and bytes(value)[1:2] == MARKED:
            return AT_WORK.format(seconds=self.patience)
        self.client, self.spare = self.spare, self.client
        self.revision, self.definitions = revision, None if last is None else bytes(last)
        return ""

    @property
    def texts(self) -> Texts:
        """The statements for the table as it is."""
        return TEXTS[self.is_before]

    def is_kept(self) -> bool:
        """Whether the last snapshot is still there."""
        if self.client.connection is None:
            return False
        try:
            return bool(self.client.run("SELECT 1"))
        except (Lost, Fault):
            return False

    def read(self, text: str, **values: object) -> list[tuple[Any, ...]]:
        """The rows of a read in the snapshot, which is gone with its connection."""
        if self.client.connection is None:
            raise Fault("the snapshot is gone")
        try:
            return self.client.run(text, values)
        except Lost as lost:
            raise Fault(f"the snapshot is gone: {lost}") from lost

    def get(self, key: bytes) -> bytes | None:
        found = self.read(self.texts.get, **key_words(key))
        return bytes(found[0][0]) if found else None

    def range(self, low: bytes, high: bytes, limit: int) -> list[Pair]:
        return [(bytes(k), bytes(v)) for k, v in self.read(self.texts.range, **range_words(low, high, limit))]

    def count(self, low: bytes, high: bytes, cap: int) -> int:
        return int(self.read(self.texts.count, **range_words(low, high, cap))[0][0])

    def together(self, asks: Sequence[Ask]) -> list[Told]:
        return told_together(asks, self.read(self.texts.together, **together_words(asks))) if asks else []

    def close(self) -> None:
        self.client.close()
        self.spare.close()
