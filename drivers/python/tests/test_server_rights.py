"""The rights of piql-serve's sockets: what each takes, and who may connect to it."""

import json
import os
import stat
import unittest
from pathlib import Path

from helpers import piql
from piql.frames import BACKUP, BROKEN, ENDED, HELLO, REPORT, STATUS, read_frame, write_frame
from piql.server.rights import Place, Right, read_place
from served import Served, ServedCase, asked, connected, greeted

READS = ("RUN rows_1 ();", "READ rows_1 ();", "EXPLAIN SELECT x;", "SHOW;", "-- INSERT\n\t run rows_1 ();", "Select a;")
WRITES = ("INSERT INTO t VALUES (1);", "UPDATE t SET a = 1;", "DELETE FROM t WHERE a = 1;")
DEFINES = ("CREATE TABLE t (a INT);", "CREATE COUNTER c ON t;", "ALTER TABLE t ADD COLUMN b INT;", "PREPARE q AS x;")
# What is no statement of this version could be one of a later version.
OTHERS = ("DROP TABLE t;", "RUN_ t;", "'RUN';", "(RUN);", "runs t;", "COPY t;", "1;", "Rün t;")


class PlaceTest(unittest.TestCase):
    def test_the_words(self) -> None:
        for word, place in {
            "/run/a:all": Place("/run/a", Right.ALL, 0o600),
            "a:b:read": Place("a:b", Right.READ, 0o600),
            "/run/a:run:660": Place("/run/a", Right.RUN, 0o660),
            "/run/a:write:0666": Place("/run/a", Right.WRITE, 0o666),
        }.items():
            self.assertEqual(read_place(word), place)
        for word in ("/a", "/a:", ":all", "/a:admin", "/a:read:7", "/a:read:777", "/a:read:060"):
            with self.subTest(word), self.assertRaises(ValueError):
                read_place(word)


class RightsTest(ServedCase):
    """One server with a socket of each right."""

    def setUp(self) -> None:
        super().setUp()
        self.ats = {right: self.folder / f"{right.value}.socket" for right in Right}
        words = [word for right, at in self.ats.items() for word in ("--socket", f"{at}:{right.value}")]
        self.server = Served(self.store, *words, program=self.program)
        self.addCleanup(self.server.end)
        self.assertIn(", ".join(map(str, self.ats.values())), self.server.said)

    def test_what_each_takes(self) -> None:
        taken = {
            Right.ALL: READS + WRITES + DEFINES + OTHERS,
            Right.WRITE: READS + WRITES + DEFINES + OTHERS,
            Right.RUN: READS + WRITES,
            Right.READ: READS,
        }
        made = 0
        for right, statements in taken.items():
            client = greeted(self, self.ats[right])
            for statement in READS + WRITES + DEFINES + OTHERS:
                kind, text = asked(client, statement)
                with self.subTest(right, statement=statement):
                    self.assertEqual(kind, REPORT if statement in statements else ENDED)
                    if kind == ENDED:
                        self.assertIn(f"this socket is for {right.value}", json.loads(text)["text"])
                    made += kind == REPORT and statement not in READS
        self.assertEqual(len(self.made()), made)
        self.assertIn("event=not-allowed client=4 right=read statement=OTHER", self.server.end()[1])

    def test_a_copy_is_for_all(self) -> None:
        for right in (Right.WRITE, Right.RUN, Right.READ):
            client = greeted(self, self.ats[right])
            write_frame(client, BACKUP, str(self.folder / "copy").encode())
            kind, text = read_frame(client)
            self.assertEqual(kind, ENDED)
            self.assertIn("this socket is for", json.loads(text)["text"])
        self.assertFalse((self.folder / "copy").exists())

    def test_how_the_server_is_may_be_asked_by_each(self) -> None:
        for at in self.ats.values():
            client = greeted(self, at)
            write_frame(client, STATUS, b"")
            self.assertEqual(read_frame(client)[0], STATUS)

    def test_the_driver(self) -> None:
        with piql.connect(f"unix:{self.ats[Right.READ]}", prepare=False) as connection:
            connection.cursor().callproc("slow", (1,))
            with self.assertRaisesRegex(piql.DatabaseError, "this socket is for read"):
                connection.execute("INSERT INTO t VALUES (1)")
            connection.cursor().callproc("slow", (1,))

    def test_all_go_at_the_end(self) -> None:
        self.assertEqual(self.server.end()[0], 0)
        self.assertEqual([at for at in self.ats.values() if at.exists()], [])


class UsersTest(ServedCase):
    """Who may connect."""

    def first_of_another_user(self, at: Path) -> bytes:
        """The kind of the first frame that another user gets; nothing where the system refuses him."""
        os.chmod(self.folder, 0o755)
        child = os.fork()
        if child == 0:
            os.setgroups([])
            os.setgid(65534)
            os.setuid(65534)
            try:
                os._exit(read_frame(connected(self, at))[0][0])
            except PermissionError:
                os._exit(0)
        return bytes([os.waitstatus_to_exitcode(os.waitpid(child, 0)[1])]).strip(b"\0")

    @unittest.skipUnless(os.geteuid() == 0, "another user can be tried by root alone")
    def test_by_its_mode(self) -> None:
        at = self.folder / "read.socket"
        self.serve("--socket", f"{at}:read:666")
        self.assertEqual(stat.S_IMODE(at.stat().st_mode), 0o666)
        self.assertEqual(self.first_of_another_user(at), HELLO)
        self.assertEqual(self.first_of_another_user(self.at), b"")
        # One that is the owner's by its mode stays so where somebody opens it.
        os.chmod(self.at, 0o666)
        self.assertEqual(self.first_of_another_user(self.at), BROKEN)

    def test_words_that_are_wrong(self) -> None:
        for words in ((), (self.at, "--socket", f"{self.at}:read"), ("--socket", f"{self.at}:admin")):
            with self.subTest(words):
                server = Served(self.store, *words, program=self.program)
                self.assertEqual(server.end()[0], 2)
        self.at.write_text("a file")
        words = ("--socket", f"{self.folder}/a:all", "--socket", f"{self.at}:read")
        server = Served(self.store, *words, program=self.program)
        self.assertEqual(server.end()[0], 1)
        self.assertEqual(sorted(it.name for it in self.folder.iterdir()), ["site.socket", "stub_file"])


if __name__ == "__main__":
    unittest.main()
