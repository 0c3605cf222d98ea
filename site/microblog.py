"""The microblog as a WSGI application: its addresses, what each one reads, and what its forms write."""

import re
import sys
import time
from collections.abc import Callable, Iterable
from html import escape
from http import HTTPStatus
from http.cookies import CookieError, SimpleCookie
from typing import Any, NamedTuple, TextIO
from urllib.parse import parse_qs, quote, unquote

import html_pages as html
from html_pages import Post
from store import Store

from piql import Connection, DataError, Error, IntegrityError, OperationalError

FORM_BYTES = 10_000
LATER = "<p class=error>The store can't be reached now. What you wrote was made or not: look before you try again.</p>"
WRONG = "<p class=error>Something is wrong with this page.</p>"
Environ = dict[str, Any]


class Request(NamedTuple):
    """A request: its store, the user of its cookie, the cursor of its page, the fields of its form."""

    store: Store
    me: str | None
    after: str | None
    form: dict[str, str]


class Answer(NamedTuple):
    """An answer: a page, or the address to go on at."""

    status: HTTPStatus
    body: str = ""
    headers: tuple[tuple[str, str], ...] = ()


class NotFound(Exception):
    """There is no such page."""


def show(request: Request, title: str, body: str, status: HTTPStatus = HTTPStatus.OK) -> Answer:
    """A page."""
    return Answer(status, html.page(title, request.me, body, request.store))


def go(path: str, *headers: tuple[str, str]) -> Answer:
    """The page to go on at."""
    return Answer(HTTPStatus.SEE_OTHER, "", (("Location", path), *headers))


def with_fans(request: Request, rows: list[tuple]) -> list[Post]:  # type: ignore[type-arg]
    """Posts with their first fans."""
    found = request.store.pages("first_fans", [(author, stamp) for author, _, stamp, _ in rows])
    return [Post(*row, [fan for (fan,) in fans.rows]) for row, fans in zip(rows, found)]


def feed_posts(request: Request, name: str, path: str) -> str:
    """What those whom a user follows have posted, newest first."""
    found = request.store.page("feed", name, after=request.after)
    posts = "".join(html.article(post) for post in with_fans(request, found.rows))
    return (posts or "<p>Nothing yet.</p>") + html.further(path, found.next_page)


def front(request: Request) -> Answer:
    """The user's own feed, and where a post is written; a stranger is asked who he is."""
    if request.me is None:
        return show(request, "Microblog", html.join_form())
    return show(request, "Feed", html.post_form() + feed_posts(request, request.me, "/"))


def feed(request: Request, name: str) -> Answer:
    """The feed of any user."""
    return show(request, f"{name}: feed", feed_posts(request, name, f"/user/{quote(name)}/feed"))


def users(request: Request) -> Answer:
    """All users."""
    found = request.store.page("everybody", after=request.after)
    return show(request, "Users", html.people(found.rows) + html.further("/users", found.next_page))


def follow_button(request: Request, name: str) -> str:
    """The button that follows a user, or that ends it."""
    if request.me is None or request.me == name:
        return ""
    if request.store.row("is_following", request.me, name):
        return html.button("/unfollow", "Unfollow", name=name)
    return html.button("/follow", "Follow", name=name)


def profile(request: Request, name: str) -> Answer:
    """A user with his posts."""
    row = request.store.row("profile", name)
    if row is None:
        raise NotFound
    shown, about = row
    path = f"/user/{quote(name)}"
    found = request.store.page("posts_of", name, after=request.after)
    head = f"<p>{escape(about)}</p>" if about is not None else ""
    links = " · ".join(html.link(f"{path}/{which}", which) for which in ("feed", "following", "followers"))
    posts = "".join(html.article(post) for post in with_fans(request, found.rows))
    body = f"{head}<p>{links} {follow_button(request, name)}</p>{posts}{html.further(path, found.next_page)}"
    return show(request, shown, body)


def people(request: Request, name: str, which: str) -> Answer:
    """Whom a user follows, or who follows him."""
    found = request.store.page(which, name, after=request.after)
    body = html.people(found.rows) + html.further(f"/user/{quote(name)}/{which}", found.next_page)
    return show(request, f"{name}: {which}", body)


def post(request: Request, author: str, stamp: str) -> Answer:
    """A post with all who like it."""
    number = int(stamp)
    row = request.store.row("post", author, number)
    if row is None:
        raise NotFound
    path = f"/post/{quote(author)}/{number}"
    fans = request.store.page("fans", author, number, after=request.after)
    liking = ""
    if request.me is not None:
        is_fan = request.store.row("is_fan", author, number, request.me)
        path_of_form, text = ("/unlike", "Unlike") if is_fan else ("/like", "Like")
        liking = html.button(path_of_form, text, author=author, stamp=stamp)
    (shown,) = with_fans(request, [row])
    body = html.article(shown) + liking + html.people(fans.rows) + html.further(path, fans.next_page)
    return show(request, f"{author}, no. {number}", body)


def entered(name: str) -> tuple[str, str]:
    """The header that keeps the user."""
    return "Set-Cookie", f"me={quote(name)}; Path=/; HttpOnly; SameSite=Lax"


def enter(request: Request) -> Answer:
    """Who the user is. There are no passwords: this is an example."""
    if request.store.row("profile", request.form.get("name", "")) is None:
        raise NotFound
    return go("/", entered(request.form["name"]))


def join(request: Request) -> Answer:
    """A new user."""
    name, shown = request.form.get("name", "").strip(), request.form.get("shown", "").strip()
    if not re.fullmatch(r"\w{1,20}", name):
        raise DataError("a name has 1 to 20 letters, digits and _")
    request.store.write("INSERT INTO users VALUES (?, ?, NULL)", name, shown or name)
    return go("/users", entered(name))


def leave(request: Request) -> Answer:
    """Forgets who the user is."""
    return go("/", ("Set-Cookie", "me=; Path=/; Max-Age=0"))


def me_of(request: Request) -> str:
    """The user, who has to be there."""
    if request.me is None:
        raise NotFound
    return request.me


def write_post(request: Request) -> Answer:
    """A new post."""
    line = request.form.get("line", "").strip()
    if line:
        request.store.write("INSERT INTO posts VALUES (?, ?, ?)", me_of(request), time.time_ns() // 1000, line)
    return go(f"/user/{quote(me_of(request))}")


def follow(request: Request) -> Answer:
    """Follows a user."""
    name = request.form.get("name", "")
    request.store.write("INSERT INTO follows VALUES (?, ?)", me_of(request), name)
    return go(f"/user/{quote(name)}")


def unfollow(request: Request) -> Answer:
    """Follows a user no longer."""
    name = request.form.get("name", "")
    request.store.write("DELETE FROM follows WHERE follower = ? AND target = ?", me_of(request), name)
    return go(f"/user/{quote(name)}")


def like(request: Request) -> Answer:
    """Likes a post."""
    author, stamp = request.form.get("author", ""), int(request.form.get("stamp", "0"))
    request.store.write("INSERT INTO likes VALUES (?, ?, ?)", author, stamp, me_of(request))
    return go(f"/post/{quote(author)}/{stamp}")


def unlike(request: Request) -> Answer:
    """Likes a post no longer."""
    author, stamp = request.form.get("author", ""), int(request.form.get("stamp", "0"))
    request.store.write("DELETE FROM likes WHERE author = ? AND stamp = ? AND fan = ?", author, stamp, me_of(request))
    return go(f"/post/{quote(author)}/{stamp}")


Handler = Callable[..., Answer]
ADDRESSES: list[tuple[str, re.Pattern[str], Handler]] = [
    ("GET", re.compile(r"/"), front),
    ("GET", re.compile(r"/users"), users),
    ("GET", re.compile(r"/user/([^/]+)"), profile),
    ("GET", re.compile(r"/user/([^/]+)/feed"), feed),
    ("GET", re.compile(r"/user/([^/]+)/(following|followers)"), people),
    ("GET", re.compile(r"/post/([^/]+)/(\d{1,18})"), post),
    ("POST", re.compile(r"/enter"), enter),
    ("POST", re.compile(r"/join"), join),
    ("POST", re.compile(r"/leave"), leave),
    ("POST", re.compile(r"/post"), write_post),
    ("POST", re.compile(r"/follow"), follow),
    ("POST", re.compile(r"/unfollow"), unfollow),
    ("POST", re.compile(r"/like"), like),
    ("POST", re.compile(r"/unlike"), unlike),
]


def single(text: str) -> dict[str, str]:
    """The first value of each field."""
    return {name: values[0] for name, values in parse_qs(text).items()}


def user_of(environ: Environ) -> str | None:
    """The user of the cookie."""
    try:
        cookies: SimpleCookie[str] = SimpleCookie(environ.get("HTTP_COOKIE", ""))
    except CookieError:
        return None
    cookie = cookies.get("me")
    return unquote(cookie.value) if cookie and cookie.value else None


def request_of(environ: Environ, connection: Connection) -> Request:
    """The request that came."""
    form = ""
    if environ["REQUEST_METHOD"] == "POST":
        length = min(int(environ.get("CONTENT_LENGTH") or 0), FORM_BYTES)
        form = environ["wsgi.input"].read(length).decode(errors="replace")
    after = single(environ.get("QUERY_STRING", "")).get("after")
    return Request(Store(connection), user_of(environ), after, single(form))


def path_of(environ: Environ) -> str:
    """The address; WSGI gives its bytes as Latin-1."""
    return str(environ.get("PATH_INFO") or "/").encode("latin-1").decode(errors="replace")


def answer(request: Request, method: str, path: str) -> Answer:
    """The answer of the address, or a page that says what is wrong."""
    for wanted, pattern, handler in ADDRESSES:
        found = pattern.fullmatch(path)
        if wanted == method and found:
            return handler(request, *found.groups())
    raise NotFound


def safe_answer(request: Request, method: str, path: str, log: TextIO) -> Answer:
    """The same. A refusal is shown to the user; of what else is wrong he is told no more than that.

    What is raised there names stores and files, which is the site's own business: it goes to the server's log.
    """
    try:
        return answer(request, method, path)
    except (NotFound, ValueError):
        return show(request, "Not found", "", HTTPStatus.NOT_FOUND)
    except (IntegrityError, DataError) as error:
        return show(request, "Not done", f'<p class=error>{escape(str(error))}</p>', HTTPStatus.BAD_REQUEST)
    except OperationalError as error:
        print(f"{method}: {error}", file=log)
        return show(request, "Later", LATER, HTTPStatus.SERVICE_UNAVAILABLE)
    except Error as error:
        print(f"{method}: {type(error).__name__}: {error}", file=log)
        return show(request, "Error", WRONG, HTTPStatus.INTERNAL_SERVER_ERROR)


def application(connection: Connection) -> Callable[[Environ, Callable[..., object]], Iterable[bytes]]:
    """The WSGI application over a connection."""

    def respond(environ: Environ, start_response: Callable[..., object]) -> Iterable[bytes]:
        log = environ.get("wsgi.errors", sys.stderr)
        made = safe_answer(request_of(environ, connection), environ["REQUEST_METHOD"], path_of(environ), log)
        body = made.body.encode()
        headers = [("Content-Type", "text/html; charset=utf-8"), ("Content-Length", str(len(body))), *made.headers]
        start_response(f"{made.status.value} {made.status.phrase}", headers)
        return [body]

    return respond
