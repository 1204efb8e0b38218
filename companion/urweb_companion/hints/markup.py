"""Hints for markup: tags, texts and splices that stand where they may not, and attributes that a tag does not have."""
import re

from urweb_companion.scene import Scene
from urweb_companion.shown_types import as_source

# As the language's document has them: where a tag stands.
WHERE = {
    "head": "the page, first and once", "title": "head", "body": "the page, once", "table": "body or form", "tr": "table", "td": "tr", "th": "tr",
    "a": "body or form", "form": "body", "br": "body or form", "hr": "body or form", "textbox": "form", "password": "form", "textarea": "form",
    "checkbox": "form", "submit": "the literal of a form",
}
WHERE |= {it: "body or form" for it in "p div span b i em strong h1 h2 h3 h4 ul ol li pre code".split()}
FIELDS = ("textbox", "password", "textarea", "checkbox")
ATTRIBUTES = {"a": ["link"], "submit": ["action", "value"], "textbox": ["value"], "password": ["value"]}
NEEDED = {"a": "link={f x}, the call of a page function", "submit": "action={f x}, a page function with all arguments but the last"}
INSTEAD = {
    "html": "the page is head and body: leave <html> out, it comes by itself", "section": "use div", "article": "use div", "main": "use div",
    "header": "use div", "footer": "use div", "nav": "use div", "label": "write the text before the field", "u": "use em", "small": "use span",
    "h5": "h1 to h4 are there", "h6": "h1 to h4 are there", "tbody": "put tr into table", "thead": "put tr into table", "tfoot": "put tr into table",
    "button": "a button is <submit action={f}/> in a form", "input": "fields are <textbox{#A}/>, <password{#A}/>, <checkbox{#A}/>, and a button is <submit/>",
    "select": "there are no lists to choose from: use links or buttons", "option": "there are no lists to choose from: use links or buttons",
    "hidden": "what a form passes on is an argument of its action: action={f x}", "script": "pages have no scripts",
    "link": "a page has no styles of its own: a front server can put one in", "style": "a page has no styles of its own: a front server can put one in",
    "meta": "the head holds title alone", "img": "there are no images", "dyn": "pages have no scripts", "active": "pages have no scripts",
    "tabl": "table", "textarea": "<textarea{#A}/>",
}


def misplaced(scene: Scene) -> list[str]:
    found, place = scene.refusal.found, scene.refusal.wanted.rstrip("'")
    if found == "text":
        return _text(place)
    if found in WHERE or re.fullmatch(r"[a-z][a-z0-9]*", found) and _tags(scene, found):
        return _tag(scene, found, place)
    return _splice(as_source(found))


def _tags(scene: Scene, name: str) -> re.Match[str] | None:
    """Returns the tag of that name in the part, with its attributes."""
    return re.search(r"<" + name + r"(?![a-z0-9])(\{[^}]*\})?((?:\"[^\"]*\"|\{[^}]*\}|[^\"{>])*)>", scene.part)


def _text(place: str) -> list[str]:
    return {
        "page": ["a page holds head and body: text stands in body, <xml><body>..</body></xml>"],
        "xtable": ["a table holds tr alone: text stands in td or th"],
        "xtr": ["a row holds td and th alone"],
        "head": ["the head holds title alone"],
        "nothing": ["this tag holds nothing: write it as <br/>, with the text behind it"],
    }.get(place, [])


def _tag(scene: Scene, name: str, place: str) -> list[str]:
    if name not in WHERE:
        return [INSTEAD.get(name, "the language has no such tag")]
    wrong = _attributes(scene, name)
    if wrong:
        return wrong
    if name == "form" and place == "form":
        return ["a form stands in no other form"]
    if name == "body" and place == "body":
        return ["body stands once, and not in itself"]
    if place == "page":
        if name in {"head", "body"}:
            return ["a page is one head, which may be left out, and then one body"]
        return [f"a page holds head and body alone: put {name} into body, <xml><body>..</body></xml>"]
    if name == "submit":
        return ["a submit stands between <form> and </form> of the same literal"]
    return [f"{name} stands in {WHERE[name]}"]


def _attributes(scene: Scene, name: str) -> list[str]:
    """Returns what is wrong with the attributes of the tag, nothing where they are its own."""
    tag = _tags(scene, name)
    if tag is None:
        return []
    written = re.findall(r"([a-z][a-z0-9]*)\s*=", re.sub(r"\{[^}]*\}|\"[^\"]*\"", "", tag[2]))
    own = ATTRIBUTES.get(name, [])
    if name in FIELDS and not tag[1]:
        return [f"a field has its name in braces: <{name}{{#A}}/>"]
    strange = [it for it in written if it not in own]
    if strange:
        has = f"has {' and '.join(own)} alone" if own else "has no attributes"
        more = [f"it has to have {NEEDED[name]}"] if name in NEEDED and own[0] not in written else []
        return [f"{name} {has}: take {', '.join(strange)} out", *more]
    if name in NEEDED and own[0] not in written:
        return [f"{name} has to have {NEEDED[name]}"]
    return []


def _splice(found: str) -> list[str]:
    if found.startswith("option "):
        return ["{[e]} shows an int, a string or a bool: case e of None => .. | Some x => .. first"]
    if "->" in found:
        return ["this is a function: give it its arguments, as in {[f ()]}"]
    if found.startswith("{"):
        return ["{[e]} shows an int, a string or a bool: name a field of the record"]
    if found.startswith(("x", "page")):
        return ["markup is put in by {e}, and {[e]} shows an int, a string or a bool"]
    if found.startswith("list "):
        return ["{[e]} shows an int, a string or a bool: go through the list by a function that gives markup"]
    if found.startswith("transaction "):
        return ["run it first, x <- e; and then show {[x]}"]
    return ["{[e]} shows an int, a string or a bool, and {e} puts in markup"]
