"""Takes one entry of an index out of a store's file, as a failing disk may: python3 lose_entry.py FILE"""

import contextlib
import sqlite3
import sys

with contextlib.closing(sqlite3.connect(sys.argv[1])) as file:
    file.execute("DELETE FROM kv WHERE k = (SELECT min(k) FROM kv WHERE k >= x'03')")
    file.commit()
