"""A site whose store is a cluster of etcd: one process writes, others read."""

import piql

SITE = "etcd://10.0.0.1:2379,10.0.0.2:2379,10.0.0.3:2379/site"

writer = piql.connect(SITE)
writer.execute("CREATE TABLE users (name TEXT(20), town TEXT(30), PRIMARY KEY (name))")
writer.execute("INSERT INTO users VALUES (?, ?)", ("ann", "rome"))
print(writer.execute("SELECT u.town FROM users AS u WHERE u.name = ?", ("ann",)).fetchall())

reader = piql.connect(SITE, reader=True)
writer.execute("UPDATE users SET town = ? WHERE name = ?", ("oslo", "ann"))
reader.wait_for(writer.revision)
print(reader.execute("SELECT u.town FROM users AS u WHERE u.name = ?", ("ann",)).fetchall())
