"""The pages answer, and none gets dearer: `python3 -m unittest` in this folder."""

import io
import tempfile
import unittest
from pathlib import Path
from wsgiref.util import setup_testing_defaults

import piql
import site_of_notes as site

HERE = Path(__file__).resolve().parent


class SiteTest(unittest.TestCase):
    def setUp(self):
        folder = tempfile.TemporaryDirectory()
        self.addCleanup(folder.cleanup)
        self.store = site.open_store(str(Path(folder.name) / "notes.db"))
        self.addCleanup(self.store.close)
        self.statuses = []

    def ask(self, path, form=None, query=""):
        """The page that a request is answered with."""
        data = (form or "").encode()
        environ = {"PATH_INFO": path, "QUERY_STRING": query, "wsgi.input": io.BytesIO(data)}
        environ |= {"REQUEST_METHOD": "GET" if form is None else "POST", "CONTENT_LENGTH": str(len(data))}
        setup_testing_defaults(environ)
        page = b"".join(site.application(self.store)(environ, lambda status, _: self.statuses.append(status)))
        return page.decode()

    def test_no_query_is_dearer_than_it_was(self):
        piql.check_bounds(self.store, HERE / "bounds.lock")

    def test_a_note_is_written_and_shown_within_its_page(self):
        self.ask("/", "name=ann")
        self.ask("/ann", "line=it+rains")
        with piql.page(self.store, most=22):
            self.assertIn("<li>it rains</li>", self.ask("/ann"))
        self.assertEqual(self.statuses, ["303 See Other", "303 See Other", "200 OK"])

    def test_pages_go_on(self):
        for number in range(21):
            self.ask("/", f"name=p{number:02}")
        first = self.ask("/")
        self.assertIn(">p19<", first)
        self.assertNotIn(">p20<", first)
        after = first.partition("?after=")[2].partition('"')[0]
        self.assertIn(">p20<", self.ask("/", query=f"after={after}"))

    def test_what_is_not_taken(self):
        self.ask("/", "name=ann")
        self.assertIn("E503", self.ask("/", "name=ann"))
        self.assertIn("Nobody", self.ask("/bob"))
        self.assertEqual(self.statuses[1:], ["400 Bad Request", "404 Not Found"])


if __name__ == "__main__":
    unittest.main()
