"""The tutorial's board for a browser: its pages as a WSGI application, and with Flask where that is installed."""

import importlib.util
import os
import sys
import unittest
from unittest import mock

from helpers import TOP, needs_file, new_folder, piql

SCRIPTS = TOP / "docs/scripts"


@needs_file
class BoardTest(unittest.TestCase):
    """A board with its rows, and the tutorial's modules at hand."""

    def setUp(self) -> None:
        self.path = str(new_folder(self) / "board.db")
        with piql.connect(self.path) as connection:
            for name in ("board.piql", "board_rows.piql"):
                connection.cursor().executescript((SCRIPTS / name).read_text())
        patch = mock.patch.object(sys, "path", [*sys.path, str(SCRIPTS)])
        patch.start()
        self.addCleanup(patch.stop)
        self.addCleanup(sys.modules.pop, "board", None)


class WsgiTest(BoardTest):
    def test_pages(self) -> None:
        import board

        connection = piql.connect(self.path)
        self.addCleanup(connection.close)
        application = board.application(connection)

        def page(query: str) -> str:
            told: bytes = b"".join(application({"QUERY_STRING": query}, lambda *_: None))
            return told.decode()

        first = page("")
        self.assertIn("a map of wells by bob: 0", first)
        after = first.partition('href="?')[2].partition('"')[0]
        self.assertIn("how bread rises", page(after))
        self.assertEqual(page("after=x"), first)

    def test_a_vote_that_is_taken_back(self) -> None:
        import board

        connection = piql.connect(self.path)
        self.addCleanup(connection.close)
        self.assertEqual([board.vote(connection, 1, name) for name in ("bob", "cid", "bob")], [1, 2, None])
        self.assertEqual([board.withdraw(connection, 1, name) for name in ("bob", "bob", "ann")], [True, False, False])
        score = connection.execute("RUN link (1)").fetchall()[0][-1]
        self.assertEqual((score, board.vote(connection, 1, "bob")), (1, 3))

    def test_a_number_that_went_to_another_voter_meanwhile(self) -> None:
        import board

        with piql.connect(self.path) as connection:
            board.vote(connection, 1, "bob")
            execute = connection.execute

            def between(*words: object) -> piql.Cursor:
                found = execute(*words)  # type: ignore[arg-type]
                if "SELECT number" in str(words[0]):
                    execute("DELETE FROM votes WHERE link = 1 AND number = 1")
                    execute("INSERT INTO votes VALUES (1, 1, 'cid')")
                return found

            with mock.patch.object(connection, "execute", between):
                self.assertFalse(board.withdraw(connection, 1, "bob"))
            self.assertEqual(execute("SELECT voter FROM votes WHERE link = 1 AND number = 1").fetchall(), [("cid",)])
            self.assertEqual(execute("RUN link (1)").fetchall()[0][-1], 1)


@unittest.skipUnless(importlib.util.find_spec("flask"), "Flask is not installed")
class FlaskTest(BoardTest):
    def setUp(self) -> None:
        super().setUp()
        patch = mock.patch.dict(os.environ, BOARD=self.path)
        patch.start()
        self.addCleanup(patch.stop)
        import board_flask

        self.addCleanup(sys.modules.pop, "board_flask")
        self.client = board_flask.app.test_client()
        self.addCleanup(lambda: board_flask.board().close())

    def voted(self, link: int, form: dict[str, str]) -> int:
        """The status of a vote."""
        status: int = self.client.post(f"/vote/{link}", data=form).status_code
        return status

    def test_pages(self) -> None:
        self.assertIn("a map of wells by bob: 0", self.client.get("/").text)
        self.assertEqual(self.voted(2, {"voter": "cid"}), 302)
        self.assertIn("a map of wells by bob: 1", self.client.get("/").text)
        self.assertEqual(self.voted(2, {"voter": "cid"}), 409)
        for link, form in ((2, {"voter": "nobody"}), (99, {"voter": "cid"})):
            self.assertEqual(self.voted(link, form), 404)
        self.assertEqual(self.voted(2, {}), 400)


if __name__ == "__main__":
    unittest.main()
