"""Stands for piql_file in the tests of the server: it is quick, and does what the first words of a statement say.

    SHOW                             the definitions: one table with one index, and queries by the names below
    RUN, READ hang | wait_MS | rows_N      never answers; answers after so many milliseconds; answers so many rows
    RUN exit_STATUS | damage         ends with a status, or as a run that met a damage whose key has the word MARKED
    EXPLAIN                          wants an index where it has the word `wants`
    SELECT                           answers one row
    RUN none                         refused with E401
    INSERT wait_MS                   made after so many milliseconds
    anything else                    made; its text is written to a line of FILE.made

Where FILE.slow is, an opening takes as many seconds as it says.
"""

import os
import re
import sys
import time

DEFINITIONS = (
    "def 1 CREATE TABLE t (a INT, b TEXT(20), PRIMARY KEY (a));\nindex t 1 (b)\n"
    "def 2 PREPARE slow AS SELECT x.b FROM t AS x WHERE x.a = [1];\n"
    "def 3 PREPARE hang AS SELECT x.b FROM t AS x WHERE x.a = [1];\n"
)
COMMENT = re.compile(rb"--[^\n]*\n")
BOUND = "bound 21 40 used 2 2"


def told(number: int, lines: str, end: str) -> None:
    """Writes a report."""
    sys.stdout.write(f"{lines}{number} {end} {BOUND}\n")
    sys.stdout.flush()


def run_query(number: int, name: str) -> None:
    """Answers a RUN, or doesn't."""
    what, _, much = name.partition("_")
    if what == "hang":
        time.sleep(3600)
    elif what == "wait":
        time.sleep(int(much) / 1000)
    elif what == "exit":
        os._exit(int(much))
    elif what == "damage":
        sys.stdout.write(f"row 'MARKED'\ndamaged {b'MARKED'.hex()}\n")
        sys.stdout.flush()
        os._exit(6)
    elif what == "none":
        return told(number, "", "refused E401 none")
    rows = int(much) if what == "rows" else 0
    told(number, "row 1, 'text of a row'\n" * rows, f"ok rows {rows}")


def serve(made: int) -> None:
    """Answers each statement; `made` is the descriptor of what was made."""
    number, left = 0, b""
    while part := os.read(0, 1 << 16):
        left += part
        while b";" in left:
            statement, _, left = left.partition(b";")
            number += 1
            words = COMMENT.sub(b" ", statement).decode(errors="replace").split()
            words[0] = words[0].upper()
            if words[0] == "SHOW":
                told(number, DEFINITIONS, "ok")
            elif words[0] == "EXPLAIN":
                told(number, "query explain stop 1 bound 21 40\n" + "index t 2 (b)\n" * (b"wants" in statement), "ok")
            elif words[0] == "SELECT":
                told(number, "row 1, 'text of a row'\n", "ok rows 1")
            elif words[0] in ("RUN", "READ"):
                run_query(number, words[1])
            else:
                if words[-1].startswith("wait_"):
                    time.sleep(int(words[-1][5:]) / 1000)
                os.write(made, statement + b"\n")
                told(number, "", "refused E503 t" if b"twice" in statement else "ok")


def main() -> None:
    path = sys.argv[1]
    # Who may read the file, as the engine makes it, is what the umask leaves.
    os.close(os.open(path, os.O_CREAT | os.O_RDWR, 0o666))
    if os.path.exists(path + ".slow"):
        with open(path + ".slow") as slow:
            time.sleep(float(slow.read()))
    sys.stdout.write("open defs 3 bound 2 257 used 2 3\n")
    sys.stdout.flush()
    serve(os.open(path + ".made", os.O_CREAT | os.O_WRONLY | os.O_APPEND, 0o600))


main()
