"""SQLAlchemy's core over a file: python3 alchemy.py FILE"""

import sys

import piql.alchemy
from sqlalchemy import Column, MetaData, String, Table, create_engine, exc, or_, select, text

users = Table("users", MetaData(), Column("name", String(20), primary_key=True), Column("town", String(30)))
TABLE = "CREATE TABLE users (name TEXT(20), town TEXT(30) NULL, PRIMARY KEY (name), CARDINALITY LIMIT 50 (town))"


def move(engine, name, town):
    """A transaction: its write is made at the end of the block, and not at all where the block raises."""
    with engine.begin() as connection:
        connection.execute(users.update().where(users.c.name == name).values(town=town))


def move_all(engine, names, town):
    """Several writes are made as one: all of them, or none."""
    with engine.begin() as connection:
        for name in names:
            connection.execute(users.update().where(users.c.name == name).values(town=town))


def town_of(engine, name):
    """A query that names the whole key has a bound."""
    with engine.connect() as connection:
        return connection.execute(select(users.c.town).where(users.c.name == name)).scalars().all()


def main(file):
    engine = create_engine(f"piql:///{file}", future=True)
    with engine.connect().execution_options(isolation_level="AUTOCOMMIT") as connection:
        connection.execute(text(TABLE))
        connection.execute(users.insert(), [{"name": "ann", "town": "rome"}, {"name": "bob", "town": None}])
        print(connection.execute(select(users).where(users.c.town == "rome")).all())
    try:
        move_all(engine, ["ann", "nobody"], "lima")
    except exc.IntegrityError as error:
        print(error.orig.number, error.orig.place)
    print(town_of(engine, "ann"))
    move(engine, "ann", "oslo")
    move_all(engine, ["ann", "bob"], "pisa")
    print(town_of(engine, "ann"))
    try:
        with engine.connect() as connection:
            connection.execute(select(users).where(or_(users.c.town == "rome", users.c.town == "oslo")))
    except piql.alchemy.NotOffered as error:
        print(error)


if __name__ == "__main__":
    main(*sys.argv[1:])
