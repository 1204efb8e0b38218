"""The small wrong programs of refusals.txt and of docs/REFUSALS.md, as their files and what must come."""
import re
import tempfile
from collections.abc import Iterator
from contextlib import contextmanager
from dataclasses import dataclass
from pathlib import Path

import context

FILE = Path(__file__).with_name("refusals.txt")
PROJECT = "m.urp"


@dataclass(frozen=True)
class Case:
    """A case: its name, the texts of its files by their names with what is said of their spelling, and the explanation that must come."""

    name: str
    files: dict[str, str]
    wanted: str


def cases() -> list[Case]:
    """Returns the cases of the file."""
    found = []
    for block in re.split(r"^=== ", FILE.read_text(encoding="utf-8"), flags=re.MULTILINE)[1:]:
        name, _, body = block.partition("\n")
        given, _, wanted = body.partition("\n>>>\n")
        parts = re.split(r"^--- (.+)\n", f"{given}\n", flags=re.MULTILINE)
        files = dict(zip(parts[1::2], parts[2::2]))
        found.append(Case(name, files, wanted.rstrip("\n") + "\n"))
    return found


def decoded(name: str, text: str) -> bytes:
    """Returns the bytes of a file; the words behind its name say how it is spelled."""
    words = name.split()[1:]
    if "escaped" not in words:
        return text.encode()
    plain = re.sub(r"\\(x[0-9a-f]{2}|u[0-9a-f]{4}|n|r|t)", lambda it: it[0].encode().decode("unicode_escape"), text.replace("\n", ""))
    return plain.encode("latin-1" if "latin1" in words else "utf-8")


@contextmanager
def written(files: dict[str, str]) -> Iterator[Path]:
    """Writes the files of a case into a folder of its own, and gives the folder."""
    with tempfile.TemporaryDirectory() as name:
        folder = Path(name)
        (folder / PROJECT).write_text("m\n", encoding="utf-8")
        for file, text in files.items():
            (folder / file.split()[0]).write_bytes(decoded(file, text))
        yield folder


def document_examples() -> list[tuple[str, dict[str, str], str]]:
    """Returns the programs that docs/REFUSALS.md shows whole: the code, the files, and the line that is printed."""
    text = (context.TOP / "docs" / "REFUSALS.md").read_text(encoding="utf-8")
    found = []
    for code, body in zip((parts := re.split(r"^## (E\d\d)$", text, flags=re.MULTILINE))[1::2], parts[2::2]):
        for it in re.finditer(r"^`(m\.\w+)`\n\n((?:    .*\n|\n)+)prints\n\n    (.*)\n", body, flags=re.MULTILINE):
            program = re.sub(r"^    ", "", it[2].rstrip("\n"), flags=re.MULTILINE)
            found.append((code, {it[1]: f"{program}\n"}, f"{it[3]}\n"))
    return found
