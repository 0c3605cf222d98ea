"""The board of links with Flask: BOARD=unix:board.socket flask --app board_flask run"""

import os
import threading

import flask

import piql
from board import front, vote

app = flask.Flask(__name__)
here = threading.local()
PAGE = """<!doctype html><title>links</title>
<ul>{% for id, title, owner, score in links %}<li>{{ title }} by {{ owner }}: {{ score }}
<form method="post" action="/vote/{{ id }}"><input name="voter"><button>vote</button></form>{% endfor %}</ul>"""


def board():
    """This thread's connection."""
    if not hasattr(here, "board"):
        here.board = piql.connect(os.environ["BOARD"])
    return here.board


@app.get("/")
def newest():
    links, _ = front(board())
    return flask.render_template_string(PAGE, links=links)


@app.post("/vote/<int:link>")
def voted(link):
    try:
        if vote(board(), link, flask.request.form["voter"]) is None:
            flask.abort(409)
    except piql.IntegrityError:  # there is no such link, or no such voter
        flask.abort(404)
    return flask.redirect("/")
