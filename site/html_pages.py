"""The microblog's pages as HTML."""

from collections.abc import Sequence
from html import escape
from typing import NamedTuple
from urllib.parse import quote

from store import Asked, Store

STYLE = """
body { font: 16px/1.45 system-ui, sans-serif; max-width: 42rem; margin: 0 auto; padding: 1rem; color: #222; }
header, nav { border-bottom: 1px solid #ccc; padding-bottom: .5rem; margin-bottom: 1rem; }
nav a { margin-right: 1rem; } article { border-bottom: 1px solid #eee; padding: .6rem 0; }
article p { margin: .2rem 0; } .small { color: #666; font-size: .85rem; } form.inline { display: inline; }
textarea { width: 100%; box-sizing: border-box; } .error { color: #a00; }
footer { margin-top: 2rem; border-top: 1px solid #ccc; font-size: .85rem; color: #444; }
footer table { border-collapse: collapse; } footer td, footer th { padding: .1rem .8rem .1rem 0; text-align: right; }
footer td:first-child, footer th:first-child { text-align: left; }
"""


class Post(NamedTuple):
    """A post with its first fans."""

    author: str
    shown: str
    stamp: int
    line: str
    fans: list[str]


def link(path: str, text: str) -> str:
    """A link."""
    return f'<a href="{escape(path)}">{escape(text)}</a>'


def user_link(name: str, shown: str) -> str:
    """A link to a profile."""
    return link(f"/user/{quote(name)}", shown)


def button(path: str, text: str, **fields: str) -> str:
    """A form of one button."""
    hidden = "".join(f'<input type="hidden" name="{name}" value="{escape(it)}">' for name, it in fields.items())
    return f'<form class="inline" method="post" action="{path}">{hidden}<button>{escape(text)}</button></form>'


def fans_text(fans: Sequence[str]) -> str:
    """The first three fans, and whether there are more."""
    if not fans:
        return "no likes yet"
    return "liked by " + ", ".join(fans[:3]) + (" and others" if len(fans) > 3 else "")


def article(post: Post) -> str:
    """A post."""
    path = f"/post/{quote(post.author)}/{post.stamp}"
    number = link(path, f"no. {post.stamp}")
    return (
        f"<article><p>{user_link(post.author, post.shown)} <span class=small>{number}</span></p>"
        f"<p>{escape(post.line)}</p><p class=small>{escape(fans_text(post.fans))}</p></article>"
    )


def people(rows: Sequence[Sequence[str]]) -> str:
    """A list of users."""
    items = (f"<li>{user_link(name, shown)} <span class=small>{escape(name)}</span></li>" for name, shown in rows)
    return "<ul>" + "".join(items) + "</ul>"


def further(path: str, after: str | None) -> str:
    """The link to the next page, if there is one."""
    return "" if after is None else f"<p>{link(f'{path}?after={quote(after)}', 'Next page')}</p>"


def post_form() -> str:
    """Where a new post is written."""
    return (
        '<form method="post" action="/post">'
        '<textarea name="line" rows="2" maxlength="280"></textarea><button>Post</button></form>'
    )


def join_form() -> str:
    """Where a user is chosen or made."""
    return (
        '<form method="post" action="/enter">Name <input name="name" maxlength="20"> <button>Enter</button></form>'
        '<form method="post" action="/join">New name <input name="name" maxlength="20"> shown as'
        ' <input name="shown" maxlength="40"> <button>Join</button></form>'
    )


def asked_rows(asked: Sequence[Asked]) -> str:
    """A line for each query of a page; the same ones together."""
    lines = []
    for name in dict.fromkeys(it.name for it in asked):
        same = [it for it in asked if it.name == name]
        numbers = [
            sum(it.bound.operations for it in same),
            sum(it.used.operations for it in same),
            sum(it.bound.entries for it in same),
            sum(it.used.entries for it in same),
        ]
        times = f" × {len(same)}" if len(same) > 1 else ""
        lines.append(f"<tr><td>{escape(name)}{times}</td>" + "".join(f"<td>{it:,}</td>" for it in numbers) + "</tr>")
    return "".join(lines)


def footer(store: Store) -> str:
    """What the page used beside its bound."""
    bound, used = store.totals()
    numbers = (bound.operations, used.operations, bound.entries, used.entries)
    total = "".join(f"<td><b>{it:,}</b></td>" for it in numbers)
    head = "<tr><th>query</th><th>operations at most</th><th>used</th><th>entries at most</th><th>used</th></tr>"
    return f"<footer><table>{head}{asked_rows(store.asked)}<tr><td><b>this page</b></td>{total}</tr></table></footer>"


def page(title: str, me: str | None, body: str, store: Store) -> str:
    """A whole page."""
    leave = f"{escape(me)} {button('/leave', 'Leave')}" if me else ""
    nav = f"<nav>{link('/', 'Feed')}{link('/users', 'Users')}{leave}</nav>"
    head = f"<head><meta charset=utf-8><title>{escape(title)}</title><style>{STYLE}</style></head>"
    return (
        f"<!doctype html><html lang=en>{head}"
        f"<body>{nav}<h1>{escape(title)}</h1>{body}{footer(store)}</body></html>"
    )
