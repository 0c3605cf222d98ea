"""The statements of a writer in PostgreSQL: each compares the fence, and one that writes counts it up as well."""

from .backend import Guard
from .postgres_layout import ASKED, AT, DIGEST, HEAD, WITHIN

LASTING = "until = clock_timestamp() + %(lease)s * interval '1 second'"
OURS = "epoch = %(epoch)s AND revision = %(revision)s"
LOOK = "SELECT owner, epoch, revision, admitted, until > clock_timestamp() FROM piql_fence"
TAKEN = f"owner = %(owner)s, epoch = epoch + 1, {LASTING}"
TAKE = f"UPDATE piql_fence SET {TAKEN} WHERE epoch = %(epoch)s RETURNING revision"
RENEW = f"UPDATE piql_fence SET {LASTING} WHERE {OURS} RETURNING revision"
SETTLE = f"UPDATE piql_fence SET epoch = epoch + 1, {LASTING} WHERE epoch = %(epoch)s RETURNING revision, admitted"
FREE = "UPDATE piql_fence SET until = '-infinity' WHERE epoch = %(epoch)s"
# From an owner who isn't this one. The epoch is another then, so he has no calls any more.
TAKE_AWAY = """UPDATE piql_fence SET until = '-infinity', epoch = epoch + 1
  WHERE owner = %(owner)s AND until > clock_timestamp() RETURNING epoch"""
GET = f"SELECT v FROM piql_fence LEFT JOIN piql_pairs ON {AT} WHERE {OURS}"
RANGE = f"SELECT k, v FROM piql_fence LEFT JOIN LATERAL (SELECT k, v {WITHIN}) AS few ON true WHERE {OURS}"
COUNT = f"SELECT (SELECT count(*) FROM (SELECT k {WITHIN}) AS few) FROM piql_fence WHERE {OURS}"
TOGETHER = f"SELECT n, k, v FROM piql_fence CROSS JOIN {ASKED} WHERE {OURS}"
HOLDS = {
    Guard.ANY: "true",
    Guard.ABSENT: f"NOT EXISTS (SELECT FROM piql_pairs WHERE {AT})",
    Guard.IS: f"EXISTS (SELECT FROM piql_pairs WHERE {AT} AND v = %(held)s)",
}
OVER = f"ON CONFLICT ({HEAD}, {DIGEST}) DO UPDATE SET v = excluded.v"
PUT = f"INSERT INTO piql_pairs SELECT %(key)s, %(new)s FROM fence WHERE admitted {OVER}"
REMOVE = f"DELETE FROM piql_pairs USING fence WHERE {AT} AND admitted"
PUT_ALL = f"""INSERT INTO piql_pairs SELECT made.k, made.v
  FROM fence, unnest(%(keys)s::bytea[], %(values)s::bytea[]) AS made(k, v) WHERE admitted {OVER}"""
REMOVE_ALL = f"""DELETE FROM piql_pairs
  USING fence, unnest(%(heads)s::bytea[], %(digests)s::bytea[]) AS gone(head, digest)
  WHERE {HEAD} = gone.head AND {DIGEST} = gone.digest AND admitted"""


def write_text(guard: Guard, *changes: str) -> str:
    """The statement of a write: the fence's row first, which says whether the guard holds, and then the pairs."""
    turned = f"UPDATE piql_fence SET revision = revision + 1, admitted = {HOLDS[guard]}, {LASTING} WHERE {OURS}"
    made = ", ".join(f"change{number} AS ({change})" for number, change in enumerate(changes))
    return f"WITH fence AS ({turned} RETURNING revision, admitted), {made} SELECT revision, admitted FROM fence"


PUTS, REMOVALS = ({guard: write_text(guard, change) for guard in Guard} for change in (PUT, REMOVE))
# (The guard's key is that of the intent.)
COMMIT = write_text(Guard.ABSENT, PUT_ALL, REMOVE_ALL)
