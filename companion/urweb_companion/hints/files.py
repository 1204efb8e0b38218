"""Hints for the project file, for files that are not there, and for files that are no UTF-8."""
import re
from difflib import get_close_matches
from pathlib import Path

from urweb_companion.scene import Scene

MODULE = re.compile(r"[a-z][A-Za-z0-9_]*")
BOM = "\ufeff"
SAVE_WITHOUT = "the file begins with a mark of byte order (BOM): save it as UTF-8 without one"


def bad_line(scene: Scene) -> list[str]:
    found, text = scene.refusal.found, scene.source.data.decode("utf-8", "replace") if scene.source else ""
    if found.startswith(BOM):
        return [SAVE_WITHOUT]
    if not text.strip():
        return ["the file names no module: write the names of the modules into it, one a line, the main module last"]
    if not found:
        return ["one empty line stands between directives and modules, and no other: take this one out"]
    if MODULE.fullmatch(found):
        return [f"module {found} is named twice: take one of the two lines out"]
    if found.endswith((".ur", ".urs")):
        return [f"a module is named without its ending: {Path(found).stem}"]
    small = found[0].lower() + found[1:]
    if MODULE.fullmatch(small):
        return [f"module {found} is the file {small}.ur, and is written {small} here"]
    if " " in found or "\t" in found:
        return [f"`{found.split()[0]}` is no directive: take the line out; `database`, `sql`, `debug` and lines with `#` are there, before an empty line"]
    return ["a module's name is a small letter, then letters, digits and _"]


def missing(scene: Scene) -> list[str]:
    path = scene.folder / scene.refusal.file
    if not path.parent.is_dir():
        return [f"the folder {Path(scene.refusal.file).parent} is not there; a path begins in the folder in which the program runs"]
    names = sorted(it.name for it in path.parent.iterdir() if it.suffix == path.suffix)
    near = [it for it in names if it.lower() == path.name.lower()] or get_close_matches(path.name, names, n=2)
    if path.stem in {"debug", "database", "sql"}:
        return [f"`{path.stem}` is read as a module: an empty line stands between directives and modules"]
    if near and near[0].lower() == path.name.lower():
        return [f"beside it is {near[0]}: name the file {path.name}"]
    if near:
        return [f"beside it is {' and '.join(near)}"]
    if path.suffix == ".urp":
        return ["look at the path; it begins in the folder in which the program runs" + (f"; here are {', '.join(names)}" if names else "")]
    return ["write the file, or take its line out of the project file"]


def not_utf8(scene: Scene) -> list[str]:
    data = scene.source.data if scene.source else b""
    if data.startswith((b"\xff\xfe", b"\xfe\xff")):
        return ["the file is UTF-16: save it as UTF-8"]
    try:
        data.decode("utf-8")
    except UnicodeDecodeError as it:
        line = data.count(b"\n", 0, it.start) + 1
        return [f"the byte {data[it.start]:02x} in line {line} is the first that is no UTF-8: save the file as UTF-8"]
    return []
