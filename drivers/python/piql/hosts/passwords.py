"""The passwords of URLs: no message tells one, whoever wrote the URL and however it is spelled."""

import re
from collections.abc import Iterator
from urllib.parse import unquote

from ..errors import InterfaceError
from .notices import notice

HIDDEN = "***"
# Of these words of a query the value is a secret. (Those of files, as passfile, name one.)
SECRET = re.compile(r"pass(?!file)|secret|token", re.IGNORECASE)
# Pieces of a secret that are shorter stand in texts of all kinds.
LEAST = 4
ADVICE = (
    "the URL {url} has a password in it, where a list of processes, a history or a log may show it:"
    " PGPASSWORD, a pass file or a service keeps it apart"
)
UNQUOTED = "the password in {url} has to be quoted: %40 stands for an @, %25 for a % itself"


def cut_user(url: str) -> tuple[str, str, str]:
    """The URL up to its password, the password, and the rest from the @ behind it. It is empty where there is none."""
    scheme, slashes, behind = url.partition("://")
    user = re.match(r"[^:@/?#]*:", behind)
    if not slashes or user is None:
        return url, "", ""
    begin = len(scheme) + len(slashes) + user.end()
    # A password that isn't quoted may have an @ and all else in it.
    query = url.find("?", begin)
    at = max(url.rfind("@", begin, query if query >= 0 else None), -1)
    at = at if at >= 0 else url.rfind("@", begin)
    return (url[:begin], url[begin:at], url[at:]) if at >= 0 else (url, "", "")


def cut_words(url: str) -> Iterator[tuple[str, str]]:
    """The words of a URL's query, each up to its value, and the value."""
    for word in url.partition("?")[2].split("&"):
        name, equals, value = word.partition("=")
        yield name + equals, value


def shown(url: str) -> str:
    """A URL without its password, and without other secrets of its query: what may stand in a message."""
    front, password, rest = cut_user(url)
    place = front + HIDDEN + rest if password else url
    bare, mark, _ = place.partition("?")
    words = (name + (HIDDEN if value and SECRET.search(unquote(name)) else value) for name, value in cut_words(place))
    return bare + mark + "&".join(words)


def secrets_of(url: str) -> list[str]:
    """The secrets of a URL as they are written and as they are meant, and pieces of them, the longest first."""
    written = [cut_user(url)[1], *(value for name, value in cut_words(url) if SECRET.search(unquote(name)))]
    found = {form for secret in written if secret for form in (secret, unquote(secret))}
    pieces = {piece for secret in found for piece in re.split(r"[@:/?#&,]", secret) if len(piece) >= LEAST}
    return sorted(found | pieces, key=len, reverse=True)


def without_secrets(text: str, url: str) -> str:
    """What another program says of a URL, without the URL's secrets."""
    for secret in secrets_of(url):
        text = text.replace(secret, HIDDEN)
    return text


def check_quoted(url: str) -> None:
    """Refuses a URL of whose password another program would take a part for something else, and tell it."""
    if re.search(r"[@:/?#\s]|%(?![0-9A-Fa-f]{2})", cut_user(url)[1]):
        raise InterfaceError(UNQUOTED.format(url=shown(url)))


def advise(url: str) -> None:
    """Tells whoever opens a URL with a password in it, once, where it is kept better."""
    if secrets_of(url):
        notice(ADVICE.format(url=shown(url)))
