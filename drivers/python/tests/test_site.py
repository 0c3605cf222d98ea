"""The microblog of site/: its pages for few and for many users, its forms, its bounds, and several workers."""

import concurrent.futures
import io
import re
import signal
import subprocess
import sys
import unittest
import unittest.mock
import urllib.request
from pathlib import Path

from helpers import TOP, StoreCase, needs_file, needs_speed, new_folder, piql

sys.path.insert(0, str(TOP / "site"))

import microblog  # noqa: E402 - the site stands beside the drivers
import seed  # noqa: E402

FEW, MANY, USER = 70, 210, "u00040"
# An address, its query, and the user who asks: pages that have nothing of the first and the last users.
ADDRESSES = [
    ("/", "", USER),
    ("/", "", None),
    ("/users", "", USER),
    (f"/user/{USER}", "", "u00039"),
    (f"/user/{USER}", "", "u00050"),
    (f"/user/{USER}/feed", "", None),
    (f"/user/{USER}/following", "", None),
    (f"/user/{USER}/followers", "", None),
    (f"/post/{USER}/2000040", "", "u00041"),
]
NEXT = re.compile(r'href="[^"?]*\?after=([A-Za-z0-9_-]+)"')


class Browser:
    """Asks an application for pages, without a network."""

    def __init__(self, connection: piql.Connection, user: str | None = None) -> None:
        self.application, self.user = microblog.application(connection), user
        self.log = io.StringIO()

    def ask(self, path: str, query: str = "", form: str | None = None) -> tuple[str, dict[str, str], str]:
        """The status, the headers and the page of an address; with a form it is sent there."""
        environ = {
            "REQUEST_METHOD": "GET" if form is None else "POST",
            "PATH_INFO": path,
            "QUERY_STRING": query,
            "HTTP_COOKIE": f"me={self.user}" if self.user else "",
            "CONTENT_LENGTH": str(len(form or "")),
            "wsgi.input": io.BytesIO((form or "").encode()),
            "wsgi.errors": self.log,
        }
        begun: list[tuple[str, list[tuple[str, str]]]] = []
        body = b"".join(self.application(environ, lambda status, headers: begun.append((status, headers))))
        return begun[0][0], dict(begun[0][1]), body.decode()


def pages_of(connection: piql.Connection) -> list[str]:
    """The pages of the addresses, and the feed's second page."""
    pages = [Browser(connection, user).ask(path, query)[2] for path, query, user in ADDRESSES]
    found = NEXT.search(pages[0])
    assert found is not None
    return [*pages, Browser(connection, USER).ask("/", f"after={found[1]}")[2]]


@needs_file
@needs_speed
class PagesTest(unittest.TestCase):
    """Few users and many."""

    def test_the_same_pages_for_few_and_many_users(self) -> None:
        found = []
        for users in (FEW, MANY):
            connection = piql.connect(new_folder(self) / "site.db")
            self.addCleanup(connection.close)
            seed.seed(connection, users, tell=False)
            found.append(pages_of(connection))
            piql.check_bounds(connection, TOP / "site/bounds.lock")
        for (path, *_), few, many in zip([*ADDRESSES, ("second page",)], *found):
            with self.subTest(path):
                self.assertIn("this page", few)
                self.assertEqual(few, many)


class FailingTest(unittest.TestCase):
    """Pages over a store that can't be reached."""

    def test_what_is_wrong_is_told_in_the_log_alone(self) -> None:
        for kind, status in ((piql.OperationalError, "503"), (piql.InternalError, "500"), (piql.InterfaceError, "500")):
            connection = unittest.mock.Mock()
            connection.execute.side_effect = kind("postgresql://site@10.0.0.1/site isn't open")
            for path, form in (("/users", None), ("/join", "name=bea")):
                browser = Browser(connection, USER)
                told, _, page = browser.ask(path, form=form)
                self.assertTrue(told.startswith(status), told)
                self.assertNotIn("10.0.0.1", page)
                self.assertIn("10.0.0.1", browser.log.getvalue())


class FormsTest(StoreCase):
    """What users write."""

    @classmethod
    def setUpClass(cls) -> None:
        super().setUpClass()
        seed.seed(cls.connection, 8, tell=False)

    def test_join_and_enter(self) -> None:
        browser = Browser(self.connection)
        status, headers, _ = browser.ask("/join", form="name=bea&shown=Bea+%3Cb%3E")
        self.assertEqual((status, headers["Location"]), ("303 See Other", "/users"))
        self.assertIn("me=bea;", headers["Set-Cookie"])
        self.assertIn("Bea &lt;b&gt;", browser.ask("/users")[2])
        self.assertIn("E503", browser.ask("/join", form="name=bea&shown=x")[2])
        self.assertEqual(browser.ask("/join", form="name=two+words")[0], "400 Bad Request")
        self.assertEqual(browser.ask("/enter", form="name=nobody")[0], "404 Not Found")
        self.assertIn("me=u00001;", browser.ask("/enter", form="name=u00001")[1]["Set-Cookie"])

    def test_post_follow_and_like(self) -> None:
        writer, reader = Browser(self.connection, "u00000"), Browser(self.connection, "u00007")
        writer.ask("/post", form="line=it%27s+%3Cnew%3E")
        page = writer.ask("/user/u00000")[2]
        self.assertIn("it&#x27;s &lt;new&gt;", page)
        stamp = re.findall(r"/post/u00000/(\d+)", page)[0]
        self.assertIn("&lt;new&gt;", reader.ask("/")[2])
        self.assertIn("Unfollow", reader.ask("/user/u00000")[2])
        reader.ask("/unfollow", form="name=u00000")
        self.assertNotIn("&lt;new&gt;", reader.ask("/")[2])
        reader.ask("/follow", form="name=u00000")
        self.assertIn("&lt;new&gt;", reader.ask("/")[2])
        reader.ask("/like", form=f"author=u00000&stamp={stamp}")
        self.assertIn("liked by u00007", reader.ask(f"/post/u00000/{stamp}")[2])
        reader.ask("/unlike", form=f"author=u00000&stamp={stamp}")
        self.assertIn("no likes yet", reader.ask(f"/post/u00000/{stamp}")[2])

    def test_what_is_not_there(self) -> None:
        browser = Browser(self.connection)
        for path in ("/nothing", "/user/nobody", "/post/u00001/7", "/post/u00001/" + "9" * 30):
            with self.subTest(path):
                self.assertEqual(browser.ask(path)[0], "404 Not Found")
        self.assertEqual(browser.ask("/users", "after=no+cursor")[0], "400 Bad Request")
        self.assertEqual(browser.ask("/post", form="line=x")[0], "404 Not Found")


@needs_file
class WorkersTest(unittest.TestCase):
    """The command, with one worker and with four."""

    def test_workers(self) -> None:
        path = new_folder(self) / "site.db"
        with piql.connect(path) as connection:
            seed.seed(connection, 10, tell=False)
        answers = {self.served_pages(path, workers) for workers in (1, 4)}
        self.assertEqual(len(answers), 1)
        with piql.connect(path) as connection:
            self.assertEqual(len(connection.schema().tables()), 4)

    def served_pages(self, path: Path, workers: int) -> str:
        """The page of all users, asked for many times at once."""
        words: list[str | Path] = [sys.executable, TOP / "site/run.py", "--file", path, "--port", "0"]
        words += ["--workers", str(workers)]
        process = subprocess.Popen(words, stdout=subprocess.PIPE, text=True)
        self.addCleanup(process.kill)
        assert process.stdout is not None
        address = process.stdout.readline().split()[0]

        def fetch(_: int) -> str:
            with urllib.request.urlopen(f"{address}users") as page:
                return str(page.read().decode())

        with concurrent.futures.ThreadPoolExecutor(8) as pool:
            pages = set(pool.map(fetch, range(40)))
        process.send_signal(signal.SIGTERM)
        self.assertEqual(process.wait(), 0)
        process.stdout.close()
        self.assertEqual(len(pages), 1)
        return pages.pop()
