"""A board of links: python3 board.py FILE page [CURSOR] | front | vote LINK VOTER | withdraw LINK VOTER
| buy LINK BUYER PRICE | serve"""

import html
import sys
import urllib.parse
from wsgiref.simple_server import make_server

import piql

# On a busy link some votes go again several times, each time because another one was made.
TRIES = 50


def vote(board, link, voter):
    """Votes for a link, and gives the vote's number; None where the voter has voted for it already."""
    for _ in range(TRIES):
        last = board.execute("RUN last_vote (?)", (link,)).fetchone()
        number = last[0] + 1 if last else 1
        try:
            with board.batch() as both:
                both.execute("INSERT INTO votes VALUES (?, ?, ?)", (link, number, voter))
                both.execute("UPDATE links SET score ADD 1 WHERE id = ?", (link,))
            return number
        except piql.IntegrityError as error:
            if error.number == "E507":  # the limit: one vote for each link and voter
                return None
            if error.number != "E503":  # another vote got this number
                raise
    raise piql.OperationalError("too many votes at once")


def withdraw(board, link, voter):
    """Takes a vote back; whether there was one."""
    vote = board.execute("SELECT number FROM votes WHERE link = ? AND voter = ?", (link, voter)).fetchone()
    if vote is None:
        return False
    try:
        with board.batch() as both:
            both.execute("DELETE FROM votes WHERE link = ? AND number = ? IF voter = ?", (link, vote[0], voter))
            both.execute("UPDATE links SET score ADD -1 WHERE id = ?", (link,))
    except (piql.IntegrityError, piql.Changed):  # it was taken back meanwhile, and its number may be another's vote
        return False
    return True


def buy(board, link, buyer, price):
    """Sells a print of a link at the price that the buyer has seen; whether there was one."""
    try:
        with board.batch() as purchase:
            purchase.execute("INSERT INTO sales VALUES (?, ?, ?)", (link, buyer, price))
            purchase.execute("UPDATE prints SET stock ADD -1 WHERE link = ? IF stock > 0 AND price = ?", (link, price))
    except piql.Changed:  # none is left, or the price is another by now
        return False
    return True


def page(board, cursor=None):
    """The newest links, as rows, with the cursor of the next page."""
    found = board.execute("RUN newest", after=cursor)
    return found.fetchall(), found.next_page


def front(board):
    """The newest links and the best ones, as rows, by one round trip."""
    with board.pipeline() as pipeline:
        newest = pipeline.run("newest")
        best = pipeline.run("best")
    return newest.rows, best.rows


def application(board):
    """The board as a WSGI application."""

    def answer(environ, start_response):
        query = urllib.parse.parse_qs(environ.get("QUERY_STRING", ""))
        try:
            links, following = page(board, query.get("after", [None])[0])
        except piql.DataError:  # E403: what a visitor has sent is no cursor of this page, so the first one is shown
            links, following = page(board)
        lines = [f"<li>{html.escape(title)} by {html.escape(owner)}: {score}" for _, title, owner, score in links]
        more = f'<a href="?after={following}">older links</a>' if following else ""
        start_response("200 OK", [("Content-Type", "text/html; charset=utf-8")])
        return [f"<!doctype html><title>links</title><ul>{''.join(lines)}</ul>{more}".encode()]

    return answer


def main(file, command, *words):
    with piql.connect(file) as board:
        if command == "page":
            links, following = page(board, *words)
            print(*links, f"next page: {following}", sep="\n")
        elif command == "front":
            newest, best = front(board)
            print("newest:", *newest, "best:", *best, sep="\n")
        elif command == "vote":
            print(vote(board, int(words[0]), words[1]))
        elif command == "withdraw":
            print(withdraw(board, int(words[0]), words[1]))
        elif command == "buy":
            print(buy(board, int(words[0]), words[1], int(words[2])))
        elif command == "serve":
            make_server("localhost", 8000, application(board)).serve_forever()


if __name__ == "__main__":
    main(*sys.argv[1:])
