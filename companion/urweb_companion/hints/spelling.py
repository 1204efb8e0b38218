"""Hints where something is no token, or a comment, a string or markup has no end."""
import html
import re

from urweb_companion.hints.files import SAVE_WITHOUT
from urweb_companion.scene import Scene
from urweb_companion.tokens import open_at

GREATEST = 9223372036854775807
ENTITY = re.compile(r"&#?[A-Za-z0-9]+;")
QUOTES = "\u2018\u2019\u201c\u201d\u00ab\u00bb"


def no_token(scene: Scene) -> list[str]:
    assert scene.source is not None
    rest = scene.source.data[scene.refusal.start:].decode("utf-8", "replace")
    if rest.startswith("\ufeff"):
        return [SAVE_WITHOUT]
    if scene.is_at_end:
        return _without_end(scene)
    token = scene.here
    within = _within(scene)
    if within == "markup":
        return _in_markup(rest)
    if within == "tag":
        return _in_tag(rest)
    if token and token.kind in {"string", "broken"}:
        return _in_string(rest)
    return _in_code(scene, rest)


def _within(scene: Scene) -> str:
    """Returns what the place is in: code, markup, or a tag."""
    opened = scene.open[-1] if scene.open else None
    if opened is None or not (opened.text == "<xml>" or opened.kind == "open"):
        return "code"
    edge = next((it.kind for it in reversed(scene.tokens[:scene.at]) if it.kind in {"open", "close", "end", "closed", "xml", "endxml"}), "xml")
    return "tag" if edge in {"open", "close"} else "markup"


def _without_end(scene: Scene) -> list[str]:
    stack = open_at(scene.tokens, scene.refusal.start)
    for token in reversed(stack):
        if token.kind == "brace":
            return [f"the brace at {scene.where(token)} begins code in markup and is not ended; a brace as text is written {{[\"{{\"]}}"]
        if token.kind == "open":
            return [f"the markup is not ended: <{token.text[1:]}> at {scene.where(token)} is open, and </xml> is missing"]
        if token.text == "<xml>":
            return [f"the markup that begins at {scene.where(token)} has no </xml>"]
    return []


def _in_markup(rest: str) -> list[str]:
    entity = ENTITY.match(rest)
    if entity:
        letter = html.unescape(entity[0])
        return [f"of these &amp; &lt; &gt; &quot; &nbsp; are there: write {letter} itself" if letter != entity[0] else "& is written &amp; in markup"]
    if rest.startswith("&"):
        return ["in markup & is written &amp;"]
    if rest.startswith("<!--"):
        return ["markup has no comments; a comment of the language, (* .. *), stands in code"]
    if rest.startswith("<!"):
        return ["the page's first line comes by itself: take this out"]
    tag = re.match(r"</?([A-Za-z][A-Za-z0-9]*)", rest)
    if tag:
        return [f"tags are written in small letters: {tag[0].lower()}"]
    if rest.startswith("<"):
        return ["in markup < is written &lt;"]
    return []


def _in_tag(rest: str) -> list[str]:
    if rest.startswith("'"):
        return ["an attribute's value stands between double quotes"]
    if rest.startswith('"'):
        return ["a string in a tag ends on its line"]
    if rest.startswith("-"):
        return ["names of tags and attributes have small letters and digits alone"]
    return ["in a tag stand attributes, as name=\"text\" or name={code}, and then > or />"]


def _in_string(rest: str) -> list[str]:
    line = rest.split("\n")[0]
    escape = re.match(r'"(?:[^"\\]|\\["\\nt])*\\([^"\\nt])', line)
    if escape:
        return [f"a string has the escapes \\\" \\\\ \\n and \\t; \\{escape[1]} is none"]
    return ["the string does not end on its line; a line end in a string is written \\n"]


def _in_code(scene: Scene, rest: str) -> list[str]:
    if rest.startswith("(*"):
        counts = scene.text(-1) in {"COUNT", "count"} or rest.startswith("(*)")
        return ["COUNT( * ) is written with blanks, since (* begins a comment" if counts else "the comment that begins here is not ended by *)"]
    if rest.startswith("!="):
        return ["`is not equal` is written <>"]
    if rest.startswith("!"):
        return ["`not` is written not, as in: not b"]
    if rest.startswith("&"):
        return ["the and of bools is written &&"]
    if rest[0] in QUOTES:
        return ["strings stand between plain quotes, \" and \""]
    if rest.startswith("'"):
        return ["a string stands between double quotes, and a text of SQL between two ' on one line"]
    if re.match(r"[0-9]+", rest):
        return [f"an int is at most {GREATEST}"]
    if rest[0] == "?" and scene.in_sql:
        return ["a value of the program in a statement is written {[e]}"]
    if ord(rest[0]) > 0x7F:
        return ["letters like this stand in strings, comments and the text of markup alone"]
    return [f"the language has no sign {rest[0]}"]
