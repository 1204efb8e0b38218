"""The definitions of specs/, each with its names told by the crate that defines them."""
import re
from collections.abc import Iterator
from dataclasses import dataclass
from pathlib import Path

from lib.clauses import PARTS, WORD, Renames

USE = re.compile(r"^(?:pub )?use (?P<path>[^\s{]+?)(?:\.\{(?P<names>[^}]*)\})?(?: as (?P<alias>\S+))?\s*$", re.MULTILINE)
NAME = re.compile(r"(?:(?:abbrev|unfoldable|pub|record|data|table|mod|symbol|erased)\s+)*(?P<name>[^\s:({]+)")


@dataclass(frozen=True)
class Definition:
    """A definition: its crate and name, the file that it stands in, and its lines, once as written and once with their names told."""

    crate: str
    name: str
    path: str
    text: str
    told: str

    @property
    def label(self) -> str:
        return f"{self.crate} {self.name}"


def imports(crate: str, text: str, renames: Renames) -> dict[str, str]:
    """Returns what the imported names of a file stand for."""
    found = {}
    for use in USE.finditer(text):
        parts = use["path"].removeprefix("Rattle.").split(".")
        names = re.split(r"\s*,\s*", use["names"]) if use["names"] is not None else [parts[-1] + (f" as {use['alias']}" if use["alias"] else "")]
        for each in filter(None, names):
            name, _, alias = each.partition(" as ")
            last = f"{parts[-1]}.{name}" if PARTS.fullmatch(name) else name
            found[alias or name] = renames.told(parts[0] if len(parts) > 1 else crate, last)
    return found


def told(word: re.Match[str], crate: str, known: dict[str, str], renames: Renames) -> str:
    """Returns a name with the crate that defines it: the one of its import, or a new name of the crate's own."""
    target = known.get(word["head"])
    if target is None:
        own = renames.told(crate, word["head"]).split("::", 1)[1]
        return own + word["rest"]
    owner, name = target.split("::", 1)
    if owner == renames.crate(crate) and not word["rest"]:
        return name
    return f"{owner}::{word['rest'][1:]}" if word["rest"] and "." not in name and name[:1].isupper() else f"{target}{word['rest']}"


def blocks(text: str) -> Iterator[str]:
    """Yields the definitions of a file: what stands between empty lines and comments, without imports."""
    for part in re.split(r"\n\s*\n|^--[^\n]*$", text, flags=re.MULTILINE):
        lines = [line for line in part.splitlines() if line.strip() and not re.match(r"(?:pub )?use |\s*--", line)]
        if lines:
            yield "\n".join(lines)


def definitions_of(top: Path, renames: Renames) -> list[Definition]:
    """Returns the definitions of all crates of a repository. The lists of modules are none."""
    found = []
    for path in sorted((top / "crates").glob("*/specs/**/*.antt")):
        where = path.relative_to(top)
        if path.name == "Lib.antt":
            continue
        crate, text = where.parts[1], path.read_text(encoding="utf-8")
        known = imports(crate, text, renames)
        for block in blocks(text):
            name = NAME.match(block.strip())
            own = renames.told(crate, name["name"] if name else block.split()[0]).split("::", 1)[1]
            plain = " ".join(block.split())
            said = WORD.sub(lambda word: told(word, crate, known, renames), plain)
            found.append(Definition(renames.crate(crate), own, str(where), block, said))
    return found
