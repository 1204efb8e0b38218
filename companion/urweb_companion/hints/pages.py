"""Hints for pages that write, for what must be static, and for what there is too much of."""
import re
from pathlib import Path

from urweb_companion.declared import module_of
from urweb_companion.heads import heads
from urweb_companion.project import sources
from urweb_companion.scene import Scene
from urweb_companion.shown_types import as_source

SHARED = {
    "routes": "let pages share a function with one more parameter", "sites": "share a query between pages by a function of its own",
    "updates": "share a change between pages by a function of its own", "parameters per function": "put parameters into a record",
    "columns per table": "split the table", "items of FROM": "ask in two queries", "sql nodes": "split the statement",
    "antiquotes per statement": "split the statement", "bytes of a source or project file": "split the file into modules",
}


def _main_module(scene: Scene) -> str:
    """Returns the last name of the project file."""
    lines = scene.source.data.decode("utf-8", "replace").split() if scene.source else []
    return lines[-1] if lines else Path(scene.refusal.file).stem


def _signature(scene: Scene) -> tuple[Path, str | None]:
    """Returns the file of the main module's signature, and its text where it is there."""
    path = Path(scene.refusal.file).parent / f"{_main_module(scene)}.urs"
    try:
        return path, (scene.folder / path).read_text(encoding="utf-8", errors="replace")
    except OSError:
        return path, None


def _is_linked(scene: Scene, name: str) -> bool:
    """Whether some link of the project's folder seems to call a function of this name."""
    call = re.compile(r"\blink\s*=\s*\{\s*\(?\s*(?:[A-Z]\w*\.)?" + re.escape(name) + r"\b")
    texts = (it.read_text(encoding="utf-8", errors="replace") for it in sources(str(scene.folder / scene.refusal.file)))
    return any(call.search(it) for it in texts)


def writes(scene: Scene) -> list[str]:
    chain = scene.refusal.found.split(" > ")
    name = chain[0].split(".")[-1]
    path, signature = _signature(scene)
    hints = [f"{chain[0]} calls {', which calls '.join(chain[1:])}, which writes"] if len(chain) > 1 else []
    if _is_linked(scene, name):
        hints.append(f"a link names {name}: make it a form with a button, <form><submit action={{{name}}}/></form>")
    if signature is None:
        hints.append(f"without a signature every page function is an entry: write {path} with the entries alone, one a line, and leave {name} out")
    elif re.search(r"\bval\s+" + re.escape(name) + r"\s*:", signature):
        hints.append(f"leave {name} out of {path}: what it names answers GET")
    return hints


def not_static(scene: Scene) -> list[str]:
    found, wanted = scene.refusal.found, scene.refusal.wanted
    known = {
        "all arguments": "the function wants further arguments: a call has all of them",
        "a call of a page function": "link={f x} calls a function whose result is transaction page; no path is written by hand",
        "int, string, bool or unit": "arguments of a path are int, string, bool or unit: pass one of these",
        "the arguments of a page function": "a button names all arguments but the last, which is the record of the form's fields, or unit for a form without",
        "a page function": "a signature names functions whose result is transaction page",
    }
    if wanted == "all arguments":
        return [_parameters(scene) or known[wanted]]
    if wanted == "no value from outside":
        return [f"a function that is passed names its own parameters alone: give {found} to the function by a further parameter"]
    if wanted in known:
        return [known[wanted]]
    if wanted.startswith("{Value"):
        return ["it is written setCookie c {Value = e, Expires = None, Secure = False}, with these words"]
    if wanted == "the type of a value":
        return [f"no function ({as_source(found)}) is a value at run time: make it a function of its own, fun g (x : int) : int = .., or a static parameter"]
    return ["no function is a value at run time; docs/LANGUAGE.md says in its part on static parameters what may be passed"]


def _parameters(scene: Scene) -> str:
    """Returns the parameters of the function that the part calls, where it is one of the same file."""
    name = re.match(r"\w+", scene.part)
    head = next((it for it in heads(module_of(scene.source)) if name and it.name == name[0]), None)
    if head is None or head.constructors:
        return ""
    written = " ".join("()" if it.type == "unit" and not it.name else f"({it.name} : {it.type})" for it in head.parameters)
    return f"a call has all arguments: {head.name} has the parameters {written}"


def instances(scene: Scene) -> list[str]:
    return [f"where {scene.refusal.found} calls itself, pass on the constructors and static arguments that it was given"]


def unfolded(scene: Scene) -> list[str]:
    if scene.refusal.found == "nesting":
        return ["fold over fewer fields, or put a part into a function of its own"]
    return ["a static argument stands in the code at each place of its use: use it once, let val z : int = g y in z + z end"]


def limit(scene: Scene) -> list[str]:
    more = SHARED.get(scene.refusal.found)
    return [f"{more}; docs/LANGUAGE.md has all limits" if more else "docs/LANGUAGE.md has all limits"]
