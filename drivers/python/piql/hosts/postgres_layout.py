"""The table of pairs in PostgreSQL, its one index, and the parts of statements that go by it.

An entry of an index has at most some 2,700 bytes, and keys may be longer. So the index has the first bytes of each key,
and a digest of those keys that go on behind them. It finds a key, has each of them once, and gives a range in the order
of the first bytes; the keys that share these are sorted by the server, which it can do as it goes along (an incremental
sort, from PostgreSQL 13 on). All keys of texts that are no longer than people write them are shorter than that.
A pair stays whole in its row: a long key that lay apart, as the server's default is, would be fetched at each of the
comparisons of a sort, which took nine times as long.

Stores of before had the key itself as the table's primary key. A writer brings such a table over.
"""

import hashlib
from collections.abc import Sequence
from typing import Any, NamedTuple

from .backend import Ask, Count, Get, Pair, Range, Told

HEAD_BYTES = 2600
HEAD = f"substr(k, 1, {HEAD_BYTES})"
DIGEST = f"(CASE WHEN octet_length(k) > {HEAD_BYTES} THEN sha256(k) ELSE '' END)"
ORDER = f"CREATE UNIQUE INDEX IF NOT EXISTS piql_pairs_order ON piql_pairs ({HEAD}, {DIGEST})"
# The most that a row of the server has within its page.
WHOLE = "(toast_tuple_target = 8160)"
TABLES = f"""
CREATE TABLE IF NOT EXISTS piql_pairs (k bytea NOT NULL, v bytea NOT NULL) WITH {WHOLE};
{ORDER};
CREATE TABLE IF NOT EXISTS piql_fence (
  one boolean PRIMARY KEY CHECK (one), owner text NOT NULL, epoch bigint NOT NULL, revision bigint NOT NULL,
  admitted boolean NOT NULL, until timestamptz NOT NULL) WITH (fillfactor = 10);
INSERT INTO piql_fence VALUES (true, '', 0, 0, true, '-infinity') ON CONFLICT DO NOTHING
"""
VERSION_LEAST = 130000
# (Another schema of the search path may have a store too.)
HAS_ORDER = """EXISTS (SELECT FROM pg_index JOIN pg_class ON pg_class.oid = indexrelid
  WHERE indrelid = to_regclass('piql_pairs') AND relname = 'piql_pairs_order' AND indisvalid)"""
LAYOUT = f"""SELECT current_setting('server_version_num')::int, to_regclass('piql_fence') IS NOT NULL, {HAS_ORDER},
  EXISTS (SELECT FROM pg_constraint WHERE conrelid = to_regclass('piql_pairs') AND contype = 'p')"""
# Readers go on meanwhile.
BUILD_ORDER = f"SET LOCAL statement_timeout = 0; ALTER TABLE piql_pairs SET {WHOLE}; {ORDER}"
# It waits for transactions that read, and those behind it wait too. So it gives up soon, and is made again.
DROP_KEY = "SET LOCAL lock_timeout = '0.5s'; ALTER TABLE piql_pairs DROP CONSTRAINT IF EXISTS piql_pairs_pkey"
# The server's code where another transaction has the table.
LOCKED = "55P03"

AT = f"{HEAD} = %(head)s AND {DIGEST} = %(digest)s"
WITHIN = f"""FROM piql_pairs WHERE {HEAD} >= %(first)s AND {HEAD} <= %(last)s AND k >= %(low)s AND k < %(high)s
  ORDER BY {HEAD}, k LIMIT %(most)s"""
# The same in a table of before.
AT_BEFORE = "k = %(key)s"
WITHIN_BEFORE = "FROM piql_pairs WHERE k >= %(low)s AND k < %(high)s ORDER BY k LIMIT %(most)s"


def asked_by(key: str, bounds: str) -> str:
    """Several questions, each a range, that for a key too: for each its number, and a row at least."""
    return f"""unnest(%(lows)s::bytea[], %(highs)s::bytea[], %(limits)s::bigint[], %(whole)s::boolean[])
  WITH ORDINALITY AS asked(low, high, most, whole, n) LEFT JOIN LATERAL (
    SELECT k, CASE WHEN whole THEN v END AS v FROM piql_pairs WHERE {bounds} k >= low AND k < high
    ORDER BY {key} LIMIT most) AS few ON true"""


ASKED = asked_by(f"{HEAD}, k", f"{HEAD} >= substr(low, 1, {HEAD_BYTES}) AND {HEAD} <= substr(high, 1, {HEAD_BYTES}) AND")
ASKED_BEFORE = asked_by("k", "")


class Layout(NamedTuple):
    """What LAYOUT tells: the server's version, and what of the tables is there."""

    version: int
    has_fence: bool
    has_order: bool
    has_key: bool


def digest_of(key: bytes) -> bytes:
    """What the index has of a key beside its first bytes."""
    return hashlib.sha256(key).digest() if len(key) > HEAD_BYTES else b""


def key_words(key: bytes) -> dict[str, object]:
    """The values of a statement about one key."""
    return {"key": key, "head": key[:HEAD_BYTES], "digest": digest_of(key)}


def range_words(low: bytes, high: bytes, most: int) -> dict[str, object]:
    """The values of a statement about a range."""
    return {"low": low, "high": high, "first": low[:HEAD_BYTES], "last": high[:HEAD_BYTES], "most": most}


def together_words(asks: Sequence[Ask]) -> dict[str, object]:
    """The values of a statement that asks several questions."""
    ranges = [Range(ask.key, ask.key + b"\0", 1) if isinstance(ask, Get) else ask for ask in asks]
    return {
        "lows": [low for low, _, _ in ranges],
        "highs": [high for _, high, _ in ranges],
        "limits": [most for _, _, most in ranges],
        "whole": [not isinstance(ask, Count) for ask in asks],
    }


def told_together(asks: Sequence[Ask], rows: list[tuple[Any, ...]]) -> list[Told]:
    """The answers to several questions, by the rows of their statement."""
    parts: list[list[Pair]] = [[] for _ in asks]
    for number, key, value in rows:
        if key is not None:
            parts[number - 1].append((bytes(key), b"" if value is None else bytes(value)))
    return [told_by(ask, part) for ask, part in zip(asks, parts, strict=True)]


def told_by(ask: Ask, part: list[Pair]) -> Told:
    """The answer to a question, by the pairs of its range."""
    if isinstance(ask, Get):
        return part[0][1] if part else None
    return len(part) if isinstance(ask, Count) else sorted(part)
