"""A refusal explained: `file:line:column: E13 found p, wanted body`, the line, carets under the part, hints, and where to read on."""
from dataclasses import dataclass, field
from pathlib import Path

from urweb_companion.display import escaped, under
from urweb_companion.hints import hints_of
from urweb_companion.program import Answer
from urweb_companion.project import Place, Source
from urweb_companion.refusals import Refusal, of_answer
from urweb_companion.scene import Scene
from urweb_companion.shown_types import as_source

BOLD, RED, PLAIN = "\x1b[1m", "\x1b[31m", "\x1b[0m"


@dataclass(frozen=True)
class Explanation:
    """What is said of a refusal, in parts, so that a terminal, a page and an editor each show them in their way."""

    refusal: Refusal
    title: str
    start: Place | None
    end: Place | None
    source: Source | None
    hints: list[str] = field(default_factory=list)

    def excerpt(self) -> tuple[str, str] | None:
        """Returns the line of the place as it is shown and the carets under it, or none where the refusal has no place."""
        if self.source is None or self.start is None or self.end is None:
            return None
        line = self.source.line(self.start.line)
        end = self.end.column if self.end.line == self.start.line else len(line) + 1
        return under(line, self.start.column - 1, end - 1)

    def lines(self, colour: bool = False) -> list[str]:
        """Returns the lines for a terminal; what a file holds is shown escaped where it would steer the terminal."""
        bold, red, plain = (BOLD, RED, PLAIN) if colour else ("", "", "")
        found = [f"{bold}{self.title}{plain}"]
        excerpt = self.excerpt()
        if excerpt and self.start:
            number = f"{self.start.line:>5} | "
            found += [number + excerpt[0], " " * (len(number) - 2) + "| " + red + excerpt[1] + plain]
        found += [f"  hint: {it}" for it in self.hints]
        return [*found, f"  see {self.refusal.link}"]

    def text(self, colour: bool = False) -> str:
        return "".join(f"{it}\n" for it in self.lines(colour))


def _said(scene: Scene) -> str:
    """Returns what was found and wanted, in the words of the code."""
    refusal = scene.refusal
    found, wanted = as_source(refusal.found), as_source(refusal.wanted).rstrip("'")
    here = "the end of the file" if scene.is_at_end else f"`{scene.text(0).split(chr(10))[0]}`"
    match refusal.code:
        case "E01":
            return f"found {found}, wanted the name of a module" if found else "found no name of a module"
        case "E02":
            return f"found no file {found}"
        case "E03":
            return "found bytes that are no UTF-8"
        case "E04":
            return "found what is no token"
        case "E05":
            return f"found {here}, which no rule has there"
        case "E07":
            return f"found {found}, a name that is not known there"
        case "E08":
            return f"found {found} a second time"
        case "E11":
            return f"found {found} beside {wanted}, wanted rows apart"
        case "E14":
            return f"found {found}, a page that answers GET and comes to {wanted}"
        case "E20":
            return f"found more {found} than {wanted}"
    return f"found {found}, wanted {wanted}"


def _place(scene: Scene) -> tuple[Place, Place] | None:
    """Returns where the refusal's part begins and ends; at the end of a file, behind its last sign."""
    if scene.source is None or not scene.refusal.has_place:
        return None
    start, end = scene.refusal.start, scene.refusal.end
    if scene.is_at_end and scene.refusal.code in {"E04", "E05"}:
        start = end = len(scene.source.data.rstrip())
    return scene.source.place(start), scene.source.place(end)


def _source_of(refusal: Refusal, folder: Path) -> Source | None:
    try:
        return Source.read(folder / refusal.file)
    except (OSError, ValueError):
        return None


def explain(refusal: Refusal, folder: Path | None = None) -> Explanation:
    """Explains a refusal of a run in a folder, the present one where none is given."""
    where = folder or Path()
    scene = Scene(refusal, _source_of(refusal, where), where)
    place = _place(scene)
    at = f"{refusal.file}:{place[0].line}:{place[0].column}" if place else refusal.file
    start, end = place or (None, None)
    title = escaped(f"{at}: {refusal.code} {_said(scene)}")
    return Explanation(refusal, title, start, end, scene.source if place else None, [escaped(it) for it in hints_of(scene)])


def of_run(answer: Answer, folder: Path | None = None) -> Explanation | None:
    """Explains what a run was refused for, or none where it was not."""
    refusal = of_answer(answer)
    return explain(refusal, folder) if refusal else None
