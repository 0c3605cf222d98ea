"""Notes of people, as a WSGI application. `python3 site_of_notes.py` serves it at http://localhost:8000.

The store is the file notes.db beside this one, or what STORE names: a file, `unix:SOCKET` of a piql-serve, or a URL.
"""

import html
import os
import time
from pathlib import Path
from urllib.parse import parse_qs, quote, unquote
from wsgiref.simple_server import make_server

import piql

HERE = Path(__file__).resolve().parent
STORE = os.environ.get("STORE", str(HERE / "notes.db"))
FORM_BYTES = 4096


def open_store(store=STORE):
    """The store with its definitions: what it lacks of the schema is made."""
    connection = piql.connect(store)
    piql.migrate(connection, HERE / "schema.piql")
    return connection


def further(path, found):
    """The link to the next page, if there is one."""
    return f'<p><a href="{path}?after={quote(found.next_page)}">more</a></p>' if found.next_page else ""


def front(store, after=None):
    """Everybody who writes."""
    found = store.execute("RUN everybody", after=after)
    people = "".join(f'<li><a href="/{quote(name)}">{html.escape(name)}</a></li>' for (name,) in found)
    form = '<form method="post" action="/"><input name="name"><button>Join</button></form>'
    return f"<h1>Notes</h1><ul>{people}</ul>{further('/', found)}{form}"


def notes(store, author, after=None):
    """The notes of one author, the newest first; None where there is no such author."""
    if store.execute("RUN person (?)", (author,)).fetchone() is None:
        return None
    found = store.execute("RUN notes_of (?)", (author,), after=after)
    lines = "".join(f"<li>{html.escape(line)}</li>" for _, line in found)
    path = f"/{quote(author)}"
    form = f'<form method="post" action="{path}"><input name="line"><button>Write</button></form>'
    return f"<h1>{html.escape(author)}</h1><ul>{lines}</ul>{further(path, found)}{form}"


def write(store, author, form):
    """A new person, or a new note of one."""
    if author:
        store.execute("INSERT INTO notes VALUES (?, ?, ?)", (author, time.time_ns() // 1000, form.get("line", "")))
    else:
        store.execute("INSERT INTO people VALUES (?)", (form.get("name", ""),))


def form_of(environ):
    """The fields of a form, the first value of each."""
    length = min(int(environ.get("CONTENT_LENGTH") or 0), FORM_BYTES)
    fields = parse_qs(environ["wsgi.input"].read(length).decode(errors="replace"))
    return {name: values[0] for name, values in fields.items()}


def answer(store, environ):
    """The status, the further headers and the page of a request."""
    author = unquote(environ.get("PATH_INFO", "/").strip("/"))
    try:
        if environ["REQUEST_METHOD"] == "POST":
            write(store, author, form_of(environ))
            return "303 See Other", [("Location", f"/{quote(author)}")], ""
        after = parse_qs(environ.get("QUERY_STRING", "")).get("after", [None])[0]
        body = notes(store, author, after) if author else front(store, after)
        return ("200 OK", [], body) if body is not None else ("404 Not Found", [], "<h1>Nobody of this name</h1>")
    except (piql.IntegrityError, piql.DataError) as error:
        # Names and texts that don't fit, somebody who is there already, a note of nobody, a cursor that is none.
        return "400 Bad Request", [], f"<h1>Not taken: {error.number}</h1>"


def application(store):
    """The WSGI application over a store."""

    def respond(environ, start_response):
        status, headers, body = answer(store, environ)
        start_response(status, [("Content-Type", "text/html; charset=utf-8"), *headers])
        return [f"<!doctype html><title>Notes</title>{body}".encode()]

    return respond


if __name__ == "__main__":
    with open_store() as opened:
        make_server("localhost", 8000, application(opened)).serve_forever()
