"""The pairs of a store's file, as hexadecimal digits: python3 pairs.py FILE"""

import sqlite3
import sys

for pair in sqlite3.connect(sys.argv[1]).execute("SELECT hex(k), hex(v) FROM kv ORDER BY k"):
    print(*pair)
