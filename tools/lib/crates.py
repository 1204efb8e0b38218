"""crates.txt: the crates with their layers, what each stands on, and what each is in a sentence."""
from collections.abc import Iterator
from dataclasses import dataclass
from pathlib import Path

from lib.program import TOP


@dataclass(frozen=True)
class Crate:
    """A crate of the repository: its name, its layer, and the crates that its line names."""

    name: str
    layer: str
    uses: tuple[str, ...]


def read(text: str) -> list[Crate]:
    """Returns the crates of the text of a crates.txt, in order. A line that is a comment alone begins a layer."""
    found, layer = [], ""
    for line in text.splitlines():
        said, _, comment = line.partition("#")
        name, colon, uses = said.partition(":")
        if colon:
            found.append(Crate(name.split()[0], layer, tuple(uses.split())))
        elif not said.strip() and comment.strip():
            layer = comment.strip()
    return found


def all_of(top: Path = TOP) -> list[Crate]:
    """Returns the crates of a repository."""
    return read((top / "crates.txt").read_text(encoding="utf-8"))


def by_layer(crates: list[Crate]) -> list[tuple[str, list[Crate]]]:
    """Returns the layers in order, each with its crates."""
    found: dict[str, list[Crate]] = {}
    for crate in crates:
        found.setdefault(crate.layer, []).append(crate)
    return list(found.items())


def root_of(name: str, top: Path = TOP) -> Path:
    """Returns the root file of a crate."""
    src = top / "crates" / name / "src"
    return src / "lib.rt" if (src / "lib.rt").is_file() else src / "main.rt"


def sources(name: str, top: Path = TOP) -> Iterator[Path]:
    """Yields the source files of a crate, in order."""
    yield from sorted((top / "crates" / name / "src").rglob("*.rt"))


def sentence(name: str, top: Path = TOP) -> str:
    """Returns what a crate is: the first paragraph of its README, or else the words at the top of its root file."""
    readme = top / "crates" / name / "README.md"
    if readme.is_file():
        return first_paragraph(readme.read_text(encoding="utf-8"))
    lines = root_of(name, top).read_text(encoding="utf-8").splitlines()
    words = [line.removeprefix("//!").strip() for line in lines if line.startswith("//!")]
    return " ".join(words)


def first_paragraph(text: str) -> str:
    """Returns the first paragraph of a document that is no heading, in one line."""
    for part in text.split("\n\n"):
        lines = [line.strip() for line in part.strip().splitlines() if not line.startswith("#")]
        if lines:
            return " ".join(lines)
    return ""
