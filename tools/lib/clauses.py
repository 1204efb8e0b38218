"""The clauses of public functions, read from sources, with each name in them told by the crate that defines it."""
import re
from collections.abc import Iterator, Mapping
from dataclasses import dataclass, field
from pathlib import Path

# Comments, strings and characters: braces in them are none of the code's. A letter before a quote makes it a name or a lifetime.
HIDDEN = re.compile(r'//[^\n]*|r#"(?:.|\n)*?"#|"(?:\\.|[^"\\])*"|(?<![\w\'])b?\'(?:\\[^\']+|[^\'\\\n])\'')
ITEM = re.compile(
    r"(?P<test>#\[cfg\(test\)\])|(?P<use>\b(?:ghost\s+)?use\s+[^;]*;)|\bimpl\b(?P<impl>[^{;]*)\{|\btrait\s+(?P<trait>\w+)[^{;]*\{"
    r"|\bmod\s+\w+\s*\{|(?P<pub>\bpub\s+)?(?:\b(?:const|unsafe|ghost)\s+)*\bfn\s+(?P<fn>\w+)|[{}]"
)
CLAUSE = re.compile(r"\s*(?P<kind>requires|ensures\*?|decreases)(?![\w*])\s*(?P<name>\w+)?\s*\{")
WORD = re.compile(r"(?<![\w.'])(?P<head>[^\W\d][\w']*)(?P<rest>(?:\.[^\W\d][\w']*)*)")
# Names that say nothing without the name before them.
PARTS = re.compile(r"The[A-Z]\w*|the_\w+")


@dataclass(frozen=True)
class Clause:
    """A clause: its kind, its name or nothing, and its text, once as it is written and once with its names told."""

    kind: str
    name: str
    text: str
    told: str

    def __str__(self) -> str:
        return " ".join(filter(None, [self.kind, self.name, "{ " + self.text + " }"]))

    @property
    def key(self) -> tuple[str, str, str]:
        return self.kind, self.name, self.told


@dataclass(frozen=True)
class Function:
    """A public function: its crate, the type or the trait that it is of, its name, the file that it stands in, and its clauses."""

    crate: str
    owner: str
    name: str
    path: str
    line: int
    clauses: tuple[Clause, ...]

    @property
    def label(self) -> str:
        return f"{self.crate} {self.owner + '::' if self.owner else ''}{self.name}"


@dataclass(frozen=True)
class Renames:
    """What has another name now: crates, and definitions and functions, each as `crate::name`."""

    crates: Mapping[str, str] = field(default_factory=dict)
    names: Mapping[str, str] = field(default_factory=dict)

    def crate(self, name: str) -> str:
        return self.crates.get(name, name)

    def told(self, crate: str, name: str) -> str:
        """Returns a name of a crate as it is now, with its crate."""
        whole = f"{self.crate(crate)}::{name}"
        return self.names.get(f"{crate}::{name}", self.names.get(whole, whole))


def read_map(text: str) -> Renames:
    """Returns what a map says: lines `NEW: OLD ..` of crates, and `OLD -> NEW` of names, each as `crate::name`."""
    crates: dict[str, str] = {}
    names: dict[str, str] = {}
    for line in text.splitlines():
        line = line.partition("#")[0].strip()
        if "->" in line:
            old, new = (part.strip() for part in line.split("->"))
            names[old] = new
        elif ": " in line:
            new, olds = line.split(":", 1)
            crates.update({old: new.strip() for old in olds.split()})
    return Renames(crates, names)


def masked(text: str) -> str:
    """Returns a text of the same length in which comments, strings and characters are blank."""
    return HIDDEN.sub(lambda found: re.sub(r"[^\n]", " ", found[0]), text)


def end_of_braces(plain: str, begin: int) -> int:
    """Returns the place after the brace that closes the one before a place."""
    depth, at = 1, begin
    while depth and at < len(plain):
        depth += {"{": 1, "}": -1}.get(plain[at], 0)
        at += 1
    return at


class Reader:
    """A source file of a crate, read from its beginning to its end."""

    def __init__(self, crate: str, path: str, text: str, renames: Renames) -> None:
        self.crate, self.path, self.text, self.plain, self.renames = crate, path, text, masked(text), renames

    def functions(self) -> list[Function]:
        return list(self.items(0, len(self.text), "", {}, False))

    def items(self, at: int, end: int, owner: str, names: Mapping[str, str], is_public: bool) -> Iterator[Function]:
        """Yields the functions of a part of the file. All are public in a trait and where one is implemented."""
        names = dict(names)
        is_test = False
        while (found := ITEM.search(self.plain, at, end)) is not None:
            at = found.end()
            if found["test"]:
                is_test = True
                continue
            if found["use"]:
                names |= self.imported(found["use"])
            elif found["fn"]:
                at, function = self.function(found, owner, names)
                if not is_test and (is_public or found["pub"]):
                    yield function
            elif found[0].endswith("{"):
                close = end_of_braces(self.plain, at)
                if not is_test and found[0] != "{":
                    yield from self.items(at, close - 1, self.owner(found), names, found["trait"] is not None or " for " in (found["impl"] or ""))
                at = close
            is_test = False

    @staticmethod
    def owner(found: re.Match[str]) -> str:
        """Returns the trait or the type of a block, a type without its parameters."""
        if found["trait"]:
            return found["trait"]
        said = re.sub(r"<[^<>]*>", "", re.sub(r"<[^<>]*>", "", re.sub(r"<[^<>]*>", "", found["impl"] or "")))
        return " ".join(said.partition(" where ")[0].split())

    def imported(self, use: str) -> dict[str, str]:
        """Returns what the names of an import stand for."""
        said = re.sub(r"\s+", " ", use).rstrip(";").strip()
        is_ghost = said.startswith("ghost")
        path = said.split("use ", 1)[1]
        front, brace, inner = path.partition("{")
        separator = "." if is_ghost else "::"
        parts = [part for part in front.split(" as ")[0].strip().split(separator) if part]
        if brace:
            return self.named(parts, re.split(r"\s*,\s*", inner.rstrip("} ")), is_ghost)
        last = path.strip()
        return self.named(parts[:-1], [last.split(separator)[-1]], is_ghost)

    def named(self, parts: list[str], names: list[str], is_ghost: bool) -> dict[str, str]:
        """Returns what names of a path stand for, each perhaps by another name."""
        crate = parts[1] if is_ghost and len(parts) > 1 else parts[0] if parts else "std"
        crate = self.crate if crate == "crate" else crate
        found = {}
        for each in filter(None, names):
            name, _, alias = each.partition(" as ")
            last = name.strip().split("::")[-1]
            if PARTS.fullmatch(last) and parts:
                last = f"{parts[-1]}.{last}"
            found[(alias or last).strip()] = self.renames.told(crate, last)
        return found

    def function(self, found: re.Match[str], owner: str, names: Mapping[str, str]) -> tuple[int, Function]:
        """Returns the place after a function, and the function with its clauses."""
        at = self.end_of_signature(found.end())
        clauses = []
        while (clause := CLAUSE.match(self.plain, at)) is not None:
            close = end_of_braces(self.plain, clause.end())
            clauses.append(self.clause(clause, close, names))
            at = close
        body = re.compile(r"\s*[{;]").match(self.plain, at)
        if body is None:
            raise ValueError(f"{self.path}: no end of `{found['fn']}` at {self.line(at)}")
        at = end_of_braces(self.plain, body.end()) if body[0].endswith("{") else body.end()
        name = self.renames.told(self.crate, found["fn"]).split("::")[-1]
        return at, Function(self.renames.crate(self.crate), owner, name, self.path, self.line(found.start()), tuple(clauses))

    def end_of_signature(self, at: int) -> int:
        """Returns where the clauses or the body of a function begin."""
        depth = 0
        while at < len(self.plain):
            sign = self.plain[at]
            if depth == 0 and (sign in "{;" or (sign == "\n" and CLAUSE.match(self.plain, at))):
                return at
            depth += {"(": 1, "[": 1, ")": -1, "]": -1}.get(sign, 0)
            at += 1
        raise ValueError(f"{self.path}: a signature without an end")

    def clause(self, found: re.Match[str], close: int, names: Mapping[str, str]) -> Clause:
        """Returns a clause, its text without comments and in one line."""
        text = re.sub(r"//[^\n]*", "", self.text[found.end():close - 1])
        text = " ".join(text.split())
        return Clause(found["kind"], found["name"] or "", text, WORD.sub(lambda word: self.told(word, names), text))

    @staticmethod
    def told(word: re.Match[str], names: Mapping[str, str]) -> str:
        """Returns a name with its crate where it is imported. Of a module's name only its crate is kept, since modules may change."""
        target = names.get(word["head"])
        if target is None:
            return word[0]
        crate, name = target.split("::", 1)
        is_module = word["rest"] and "." not in name
        return f"{crate}::{word['rest'][1:]}" if is_module else f"{target}{word['rest']}"

    def line(self, at: int) -> int:
        return self.text.count("\n", 0, at) + 1


def functions_of(top: Path, renames: Renames) -> list[Function]:
    """Returns the public functions of all crates of a repository."""
    found = []
    for path in sorted((top / "crates").glob("*/src/**/*.rt")):
        where = path.relative_to(top)
        found += Reader(where.parts[1], str(where), path.read_text(encoding="utf-8"), renames).functions()
    return found
