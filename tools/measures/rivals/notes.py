"""The notes in Flask over sqlite3, with the same pages. A thread keeps its connection; a request that writes is one transaction.

usage: notes.py PORT FILE    the server is waitress, with eight threads
"""
import sqlite3
import sys
import threading

import flask
import waitress

PAGE = """<!DOCTYPE html>
<html><head><title>Notes</title></head><body><h1>{{ who }}</h1>{% for id, body in notes %}<p>{{ body }}</p>\
<form method="post"><input type="submit" formaction="/Main/drop/{{ id }}" value="Drop"/></form>\
<form method="post"><input type="text" name="To"/><input type="submit" formaction="/Main/move/{{ id }}" value="Move"/></form>{% endfor %}\
<form method="post"><input type="text" name="Body"/><input type="submit" formaction="/Main/add/{{ who }}" value="Add"/></form></body></html>"""
DONE = "<!DOCTYPE html>\n<html><body><p>done</p></body></html>"
TABLES = """CREATE TABLE IF NOT EXISTS note (Id INTEGER PRIMARY KEY, Owner TEXT NOT NULL, Body TEXT NOT NULL);
CREATE TABLE IF NOT EXISTS ids (Next INTEGER NOT NULL);
INSERT INTO ids SELECT 1 WHERE NOT EXISTS (SELECT 1 FROM ids)"""

app = flask.Flask(__name__)
own = threading.local()


def base() -> sqlite3.Connection:
    """Returns this thread's connection."""
    if not hasattr(own, "base"):
        own.base = sqlite3.connect(app.config["FILE"], timeout=30)
    link: sqlite3.Connection = own.base
    return link


def page(who: str) -> str:
    rows = base().execute("SELECT Id, Body FROM note WHERE Owner = ? ORDER BY Id", (who,)).fetchall()
    return flask.render_template_string(PAGE, who=who, notes=rows)


@app.get("/Main/list/<who>")
def list_notes(who: str) -> str:
    return page(who)


@app.post("/Main/add/<who>")
def add(who: str) -> str:
    with base() as link:
        link.execute("BEGIN IMMEDIATE")
        number = link.execute("SELECT Next FROM ids").fetchone()[0]
        link.execute("UPDATE ids SET Next = Next + 1")
        link.execute("INSERT INTO note (Id, Owner, Body) VALUES (?, ?, ?)", (number, who, flask.request.form["Body"]))
    return page(who)


@app.post("/Main/drop/<int:number>")
def drop(number: int) -> str:
    with base() as link:
        link.execute("DELETE FROM note WHERE Id = ?", (number,))
    return DONE


@app.post("/Main/move/<int:number>")
def move(number: int) -> str:
    with base() as link:
        link.execute("UPDATE note SET Owner = ? WHERE Id = ?", (flask.request.form["To"], number))
    return DONE


def main() -> None:
    app.config["FILE"] = sys.argv[2]
    base().executescript(TABLES)
    waitress.serve(app, host="127.0.0.1", port=int(sys.argv[1]), threads=8, _quiet=True)


if __name__ == "__main__":
    main()
