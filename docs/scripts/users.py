"""A table, a row and a query."""

import piql

with piql.connect("site.db") as connection:
    connection.execute("CREATE TABLE users (name TEXT(20), town TEXT(30), PRIMARY KEY (name))")
    connection.execute("INSERT INTO users VALUES (?, ?)", ("ann", "rome"))
    cursor = connection.execute("SELECT u.town FROM users AS u WHERE u.name = ?", ("ann",))
    print(cursor.fetchall(), "at most", cursor.bound, "used", cursor.used)  # [('rome',)] at most 1 1 used 1 1
