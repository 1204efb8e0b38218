"""The pages that are shown in the place of the program's while one writes: a refusal explained, tables that do not fit, a program that ended."""
import html
import shlex
from pathlib import Path

from urweb_companion.explain import explain
from urweb_companion.gate import Ended
from urweb_companion.messages import Reply, reply
from urweb_companion.program import Status
from urweb_companion.refusals import parse
from urweb_companion.store import log_of

STYLE = """body{font:16px/1.5 sans-serif;margin:2em auto;max-width:60em;padding:0 1em;color:#222;background:#fff}
h1{font-size:1.3em;border-left:.4em solid #c33;padding-left:.6em}
pre{font:14px/1.45 monospace;background:#f4f4f4;padding:1em;overflow:auto;tab-size:4}"""

AGAIN = "<p>Save the file, and load this page again.</p>"


def page(status: str, title: str, body: str) -> Reply:
    """Returns a page of a title and of markup."""
    head = f'<head><meta charset="utf-8"><title>{html.escape(title)}</title><style>{STYLE}</style></head>'
    text = f"<!DOCTYPE html>\n<html lang=\"en\">{head}<body><h1>{html.escape(title)}</h1>\n{body}\n</body></html>\n"
    return reply(status, text.encode("utf-8", "replace"))


def ended(project: str, store: Path, state: Ended) -> Reply:
    """Returns the page for what the program ended with."""
    said = state.said.decode("utf-8", "replace")
    match state.status:
        case Status.REFUSED:
            return _refused(project, said)
        case Status.SCHEMA:
            return _other_tables(project, store, said)
        case Status.KEEPER:
            return _no_tables(store)
        case Status.SHELF:
            return page("500 Internal Server Error", f"A file of {project} cannot be read", AGAIN)
        case Status.MEMORY:
            return page("500 Internal Server Error", f"Memory is wanting for {project}", AGAIN)
    return page("500 Internal Server Error", f"The program ended with status {state.status}", _pre(said) + AGAIN)


def explained(said: str) -> str:
    """Returns the explanation of what the program said of a project that it refuses, or that itself."""
    refusal = parse(said)
    try:
        return explain(refusal).text() if refusal else said
    except OSError:
        # A file that is being written anew may not be there for a moment.
        return said


def _refused(project: str, said: str) -> Reply:
    return page("500 Internal Server Error", f"{project} is refused", _pre(explained(said)) + AGAIN)


def _other_tables(project: str, store: Path, said: str) -> Reply:
    """Returns the page for a file of other tables: its rows are taken over, or it is put away."""
    new = store.with_name(f"{store.stem}-new{store.suffix}")
    migrate = f"./urweb migrate {_word(project)} {_word(store)} {_word(new)}"
    put_away = f"rm -f {_word(store)} {_word(log_of(store))}"
    body = f"""<p>The file {html.escape(str(store))} has the tables of the project as it was.</p>
{_pre(said)}
<p>Take its rows over into a file for the tables as they are, which says what it needs to know; then put it in the place of the old one:</p>
{_pre(f"{migrate}{chr(10)}{put_away} && mv {_word(new)} {_word(store)}")}
<p>Or begin with empty tables:</p>
{_pre(put_away)}
<p>Then load this page again.</p>"""
    return page("500 Internal Server Error", "The tables are others", body)


def _no_tables(store: Path) -> Reply:
    body = f"""<p>The program cannot have its tables in {html.escape(str(store))}. Another program may have it, it may be no file of tables,
or it may not be written; ended with status 7. When that is mended, load this page again.</p>"""
    return page("500 Internal Server Error", "The file of tables cannot be used", body)


def starting() -> Reply:
    return page("503 Service Unavailable", "The program is still starting", "<p>Load this page again in a moment.</p>")


def lost(method: str) -> Reply:
    """Returns the page for a request during which the program ended."""
    saved = "" if method in ("GET", "HEAD") else " What was sent may have been saved."
    return page("502 Bad Gateway", "The program was started anew meanwhile", f"<p>There is no answer.{saved}</p>")


def late(seconds: float) -> Reply:
    return page("504 Gateway Timeout", f"There was no answer within {seconds:.0f} seconds", "")


def _pre(text: str) -> str:
    return f"<pre>{html.escape(text)}</pre>"


def _word(text: object) -> str:
    return shlex.quote(str(text))
