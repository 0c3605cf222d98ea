"""Words and files that the program refuses, files that it takes, and what a second run finds."""

import os
import pathlib
import re
import sqlite3
import stat

from common import answers, asked, expect, fail, run

NOBODY = 65534
SHAPE = "CREATE TABLE kv(k BLOB PRIMARY KEY, v BLOB NOT NULL)"
OPENING = re.compile(rb"^open defs (\d+) bound \d+ \d+ used \d+ \d+$", re.MULTILINE)
USAGE, STORE_FAULT = 2, 5


def said(program: pathlib.Path, words: list, script: bytes = b"", user: int | None = None) -> tuple[int, bytes]:
    """The status of a run, and all that it writes."""
    ended = run(program, words, script, user=user)
    return ended.status, ended.output + ended.errors


def held(path: pathlib.Path) -> bytes | list[str]:
    """What stands at a path: the bytes of a file, or the names in a folder."""
    return sorted(os.listdir(path)) if path.is_dir() else path.read_bytes()


def words_are_tested_first(program: pathlib.Path, folder: pathlib.Path) -> None:
    path = folder / "words.db"
    for words in ([], [path], [path, "walk"], [path, "run", "run"], [path, b"r\xffn"], [b"\xff", "run"]):
        expect(f"the words {words}", (USAGE, b""), said(program, words))
        if path.exists():
            fail(f"the words {words}", "they made a file")


def made(path: pathlib.Path, *texts: str) -> None:
    connection = sqlite3.connect(path)
    for text in texts:
        connection.execute(text)
    connection.commit()
    connection.close()


def is_refused(program: pathlib.Path, path: pathlib.Path, user: int | None = None) -> None:
    """The run ends with status 5, writes nothing, and leaves what stands there."""
    before = held(path) if path.exists() else None
    expect(f"a run over {path.name}", (STORE_FAULT, b""), said(program, [path, "run"], b"SHOW;", user))
    expect(f"{path.name} after the run", before, held(path) if path.exists() else None)


def other_files_are_refused(program: pathlib.Path, folder: pathlib.Path) -> None:
    text, nothing, inner = folder / "text.db", folder / "folder.db", folder / "nowhere" / "tables.db"
    text.write_bytes(b"This is no database.\n" * 400)
    nothing.mkdir()
    for path in (text, nothing, inner):
        is_refused(program, path)
    for name, shape in (
        ("columns", "CREATE TABLE kv(k TEXT PRIMARY KEY, v TEXT)"),
        ("no_key", "CREATE TABLE kv(k BLOB, v BLOB NOT NULL)"),
        ("more", "CREATE TABLE kv(k BLOB PRIMARY KEY, v BLOB NOT NULL, w)"),
    ):
        path = folder / f"{name}.db"
        made(path, shape, "INSERT INTO kv (k, v) VALUES ('a', 'b')")
        is_refused(program, path)
        expect(f"the rows of {name}.db", [[("a", "b")]], asked(path, "SELECT k, v FROM kv"))


def files_in_use_are_refused(program: pathlib.Path, folder: pathlib.Path) -> None:
    path, other = folder / "names.db", folder / "other_name.db"
    made(path, SHAPE)
    os.link(path, other)
    is_refused(program, path)
    other.unlink()
    connection = sqlite3.connect(path, isolation_level=None)
    connection.execute("BEGIN EXCLUSIVE")
    # Nothing is read here meanwhile: closing the file would give up the lock of this whole process.
    expect("a run over a file in use", (STORE_FAULT, b""), said(program, [path, "run"], b"SHOW;"))
    connection.close()
    answers(program, path, b"SHOW;")
    for name in ("", ":memory:", "file:uri.db"):
        expect(f"a run over {name!r}", (STORE_FAULT, b""), said(program, [name, "run"], b"SHOW;"))


def other_databases_are_taken(program: pathlib.Path, folder: pathlib.Path) -> None:
    """An empty file, and one with a table of somebody else's beside the store's."""
    empty, beside = folder / "empty.db", folder / "beside.db"
    empty.touch()
    made(beside, "CREATE TABLE other(a)", "INSERT INTO other VALUES (1)")
    for path in (empty, beside):
        answers(program, path, b"CREATE TABLE m (id INT, PRIMARY KEY (id));")
        expect(f"the pairs in {path.name}", [[(1,)]], asked(path, "SELECT count(*) FROM kv"))
    expect("the rows of the other table", [[(1,)]], asked(beside, "SELECT a FROM other"))


def files_without_rights_are_refused(program: pathlib.Path, folder: pathlib.Path) -> None:
    """As nobody, where this runs as root: root may open any file."""
    user = NOBODY if os.geteuid() == 0 else None
    room = folder / "rights"
    room.mkdir()
    for name, rights in (("none.db", 0), ("read.db", stat.S_IRUSR)):
        path = room / name
        made(path, SHAPE)
        os.chmod(path, rights)
        if user:
            os.chown(path, user, user)
        before = path.read_bytes() if user else None
        expect(f"a run over {name}", (STORE_FAULT, b""), said(program, [path, "run"], b"SHOW;", user))
        if user:
            expect(f"{name} after the run", before, path.read_bytes())
    os.chmod(room, 0o555)
    words = [room / "new.db", "run"]
    expect("a run in a folder without rights", (STORE_FAULT, b""), said(program, words, b"SHOW;", user))
    os.chmod(room, 0o755)


def a_second_run_finds_the_definitions(program: pathlib.Path, folder: pathlib.Path) -> None:
    path = folder / "second.db"
    answers(program, path, b"CREATE TABLE m (id INT, v INT, PRIMARY KEY (id));\nINSERT INTO m VALUES (1, 7);\n")
    found = asked(path, "SELECT count(*) FROM kv", "PRAGMA integrity_check")
    expect("what sqlite3 finds", [[(2,)], [("ok",)]], found)
    text = answers(program, path, b"PREPARE one AS SELECT m.v FROM m WHERE m.id = [1];\nRUN one (1);\n")
    expect("the definitions of the second run", b"1", OPENING.search(text).group(1))
    if b"\nrow 7\n" not in text:
        fail("the second run", f"the row isn't there: {text!r}")


def try_all(program: pathlib.Path, folder: pathlib.Path) -> None:
    for trial in (
        words_are_tested_first,
        other_files_are_refused,
        files_in_use_are_refused,
        files_without_rights_are_refused,
        other_databases_are_taken,
        a_second_run_finds_the_definitions,
    ):
        trial(program, folder)
        print(trial.__name__.replace("_", " "), flush=True)
