"""Statements of SQLAlchemy's core: what is sent for each, and what is told of those that the language doesn't have."""

from collections.abc import Callable

import sqlalchemy as sa
from sqlalchemy import and_, or_, select

SCHEMA = """
CREATE TABLE users (name TEXT(20), town TEXT(30) NULL, karma INT, active BOOL, PRIMARY KEY (name),
  CARDINALITY LIMIT 9 (town));
CREATE TABLE posts (owner TEXT(20), number INT, line TEXT(200), PRIMARY KEY (owner, number),
  FOREIGN KEY (owner) REFERENCES users);
CREATE COUNTER posts_of OF posts (owner);
PREPARE by_town AS SELECT u.name FROM users AS u WHERE u.town = [1];
"""
META = sa.MetaData()
USERS = sa.Table(
    "users",
    META,
    sa.Column("name", sa.String(20), primary_key=True),
    sa.Column("town", sa.String(30), nullable=True),
    sa.Column("karma", sa.Integer, nullable=False),
    sa.Column("active", sa.Boolean, nullable=False),
)
POSTS = sa.Table(
    "posts",
    META,
    sa.Column("owner", sa.String(20), sa.ForeignKey("users.name"), primary_key=True),
    sa.Column("number", sa.Integer, primary_key=True, autoincrement=False),
    sa.Column("line", sa.String(200), nullable=False),
)
U, P = USERS.alias("u"), POSTS.alias("p")
N, T, K, A = U.c.name, U.c.town, U.c.karma, U.c.active
# A statement and what is sent for it.
SENT: list[tuple[object, str]] = [
    (select(N), "SELECT u.name FROM users AS u"),
    (select(USERS.c.name).where(USERS.c.town == "x"), "SELECT users.name FROM users WHERE users.town = ?"),
    (select(N, K.label("points")).where(T == "x"), "SELECT u.name, u.karma FROM users AS u WHERE u.town = ?"),
    (select(N).where(T == "x", K != 3), "SELECT u.name FROM users AS u WHERE u.town = ? AND u.karma <> ?"),
    (
        select(N).where(and_(T == "x", and_(K < 3, K >= 1))),
        "SELECT u.name FROM users AS u WHERE u.town = ? AND u.karma < ? AND u.karma >= ?",
    ),
    (select(N).where(K.between(1, 3)), "SELECT u.name FROM users AS u WHERE u.karma >= ? AND u.karma <= ?"),
    (select(N).where(T.is_(None)), "SELECT u.name FROM users AS u WHERE u.town IS NULL"),
    (select(N).where(T == None), "SELECT u.name FROM users AS u WHERE u.town IS NULL"),  # noqa: E711
    (select(N).where(A, T == "x"), "SELECT u.name FROM users AS u WHERE u.active = TRUE AND u.town = ?"),
    (select(N).where(A == False), "SELECT u.name FROM users AS u WHERE u.active = FALSE"),  # noqa: E712
    (select(N).where(A.is_(True)), "SELECT u.name FROM users AS u WHERE u.active = TRUE"),
    (select(N).where(~A), "SELECT u.name FROM users AS u WHERE u.active = FALSE"),
    (select(N).order_by(K.desc(), N), "SELECT u.name FROM users AS u ORDER BY u.karma DESC, u.name"),
    (select(N.label("n")).order_by("n"), "SELECT u.name FROM users AS u ORDER BY u.name"),
    (
        select(P.c.line, T).select_from(P.join(U, and_(N == P.c.owner, T == "x"))).where(P.c.number > 3),
        "SELECT p.line, u.town FROM posts AS p JOIN users AS u WHERE u.name = p.owner AND u.town = ? AND p.number > ?",
    ),
    (
        select(N, P.c.line).where(P.c.owner == N),
        "SELECT u.name, p.line FROM users AS u, posts AS p WHERE p.owner = u.name",
    ),
    (POSTS.insert().values(owner="a", number=1, line="b"), "INSERT INTO posts (owner, number, line) VALUES (?, ?, ?)"),
    (
        POSTS.update().where(POSTS.c.owner == "a", POSTS.c.number == 1).values(line="c"),
        "UPDATE posts SET line=? WHERE owner = ? AND number = ?",
    ),
    (USERS.delete().where(and_(USERS.c.name == "a")), "DELETE FROM users WHERE name = ?"),
]
ONE = USERS.c.name == "ann"
# A statement, and a part of what is told of it.
REFUSED: list[tuple[Callable[[], object], str]] = [
    (lambda: select(N).where(or_(T == "x", T == "y")), "no OR: run the query once for each value"),
    (lambda: select(N).where(K == 1, or_(T == "x", T == "y")), "no OR"),
    (lambda: select(N).where(T.in_(["x", "y"])), "no IN"),
    (lambda: select(N).where(T.not_in(["x"])), "no IN"),
    (lambda: select(N).where(T.like("x%")), "no LIKE"),
    (lambda: select(N).where(T.startswith("x")), "no LIKE"),
    (lambda: select(N).where(T.is_not(None)), "no IS NOT NULL"),
    (lambda: select(N).where(K + 1 == 3), "no expressions"),
    (lambda: select(K * 2), "no expressions"),
    (lambda: select(sa.cast(K, sa.String)), "no expressions"),
    (lambda: select(sa.case((K == 1, "x"), else_="y")), "no expressions"),
    (lambda: select(sa.literal(1)), "no expressions"),
    (lambda: select(sa.func.count()).select_from(U), "no functions"),
    (lambda: select(sa.func.lower(N)), "no functions"),
    (lambda: select(N).select_from(U.outerjoin(P, P.c.owner == N)), "no outer joins"),
    (lambda: select(N).where(N == select(P.c.owner).scalar_subquery()), "no queries within statements"),
    (lambda: select(N).where(select(P.c.owner).where(P.c.owner == N).exists()), "no queries within statements"),
    (lambda: select(select(N).subquery().c.name), "no queries within statements"),
    (lambda: select(select(N).cte("x").c.name), "no queries within statements"),
    (lambda: select(N).union(select(P.c.owner)), "no UNION"),
    (lambda: select(N).distinct(), "no DISTINCT"),
    (lambda: select(T).group_by(T), "no DISTINCT, GROUP BY"),
    (lambda: select(N).offset(3), "no OFFSET: pages go by cursors"),
    (lambda: select(N).limit(sa.func.x()), "no LIMIT but of a number"),
    (lambda: select(N).fetch(3), "no LIMIT but of a number"),
    (lambda: select(N).with_for_update(), "no FOR UPDATE"),
    (lambda: select(N).order_by(T.nulls_first()), "no NULLS FIRST"),
    (lambda: select(N).prefix_with("X"), "no prefixes"),
    (lambda: USERS.insert().values([{"name": "a"}, {"name": "b"}]), "no several rows in one INSERT"),
    (lambda: USERS.insert().from_select(["name"], select(P.c.owner)), "no queries within statements"),
    (lambda: USERS.insert().returning(USERS.c.name), "no RETURNING"),
    (lambda: USERS.update().values(town="x"), "no UPDATE but of one row by its whole key"),
    (lambda: USERS.update().where(USERS.c.town == "x").values(karma=1), "no UPDATE but of one row"),
    (lambda: USERS.update().where(ONE, USERS.c.karma == 1).values(town="x"), "no UPDATE but of one row"),
    (lambda: USERS.update().where(USERS.c.name >= "a").values(town="x"), "no UPDATE but of one row"),
    (lambda: USERS.update().where(ONE).values(karma=USERS.c.karma + 1), "no expressions"),
    (lambda: POSTS.update().where(POSTS.c.owner == "a").values(line="x"), "no UPDATE but of one row"),
    (lambda: USERS.delete(), "no DELETE but of one row"),
    (lambda: USERS.delete().where(USERS.c.name == P.c.owner), "no DELETE but of one row"),
    (lambda: select(sa.table("order", sa.column("x"))), "no 'order' as a name"),
    (lambda: select(sa.table("a b", sa.column("x"))), "no 'a b' as a name"),
    (lambda: select(sa.table("x" * 33, sa.column("x"))), "no 'xxx"),
    (lambda: select(sa.table("t", sa.column("x; DELETE"))), "no 'x; DELETE' as a name"),
    (lambda: select(sa.table("t", sa.column("x"), schema="s")), "no schemas"),
    (lambda: sa.schema.CreateTable(USERS), "no definitions by metadata.create_all: python -m piql migrate"),
]
