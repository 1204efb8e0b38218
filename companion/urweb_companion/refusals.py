"""A refusal as the program prints it, and its section of docs/REFUSALS.md."""
import re
from dataclasses import dataclass
from functools import cache
from pathlib import Path

from urweb_companion.program import Answer, Status, top

LINE = re.compile(r"(E\d\d) (.+?):(\d+)-(\d+) (.*) \| (.*)", re.DOTALL)
DOCUMENT = "docs/REFUSALS.md"


@dataclass(frozen=True)
class Refusal:
    """One line of a refusal: the code, the file, two offsets in bytes, what was found and what was wanted."""

    code: str
    file: str
    start: int
    end: int
    found: str
    wanted: str

    @property
    def path(self) -> Path:
        return Path(self.file)

    @property
    def has_place(self) -> bool:
        """Whether the offsets are a place in the file, and not the `0-0` of what concerns a whole file."""
        return self.code not in {"E02", "E03", "E14", "E17", "E18", "E19", "E20"}

    @property
    def link(self) -> str:
        """The section that says what to do, by a path from the present folder where the document is below it."""
        document = top() / DOCUMENT
        below = document.is_relative_to(Path.cwd())
        return f"{document.relative_to(Path.cwd()) if below else document}#{self.code.lower()}"


def parse(line: str) -> Refusal | None:
    """Returns the refusal that a line of the program is, or none."""
    it = LINE.fullmatch(line.rstrip("\n"))
    return Refusal(it[1], it[2], int(it[3]), int(it[4]), it[5], it[6]) if it else None


def of_answer(answer: Answer) -> Refusal | None:
    """Returns the refusal that a run ended with, or none."""
    return parse(answer.text) if answer.status == Status.REFUSED else None


@cache
def sections() -> dict[str, str]:
    """Returns the text of each section of the document, by its code, without its heading."""
    text = (top() / DOCUMENT).read_text(encoding="utf-8")
    parts = re.split(r"^## (E\d\d)$", text, flags=re.MULTILINE)
    return {code: body.strip() for code, body in zip(parts[1::2], parts[2::2])}


def section(code: str) -> str:
    """Returns the document's section of a code, empty where it has none."""
    return sections().get(code, "")
