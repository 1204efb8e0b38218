"""What the program says of the projects of a folder, as an editor shows it. The program runs over a copy, in which texts that are not saved stand too."""
import subprocess
import tempfile
from collections.abc import Iterator
from dataclasses import dataclass, replace
from pathlib import Path

from urweb_companion import explain, program, project, refusals
from urweb_companion.program import Status
from urweb_companion.refusals import Refusal

SECONDS = 60
Position = tuple[int, int]


@dataclass(frozen=True)
class Finding:
    """A refusal at its place: a line and a column of its begin and of its end, from 0, columns in UTF-16 units."""

    path: Path
    start: Position
    end: Position
    refusal: Refusal
    title: str
    hints: tuple[str, ...]

    @property
    def message(self) -> str:
        """Returns what was found and wanted, and the hints."""
        return "\n".join([self.title, *self.hints])

    @property
    def help(self) -> str:
        """Returns the section of the document in Markdown, below what was found."""
        hints = "".join(f"- {hint}\n" for hint in self.hints)
        return f"**{self.refusal.code}** {self.title}\n\n{hints}\n{refusals.section(self.refusal.code)}".strip()

    def covers(self, position: Position) -> bool:
        return self.start <= position <= self.end


def place(source: project.Source, said: Refusal) -> tuple[Position, Position]:
    """Returns the place of a refusal, at least a character wide where its line has one; at a file's end that is its last sign.
    A refusal of a whole file stands on its first line."""
    if not said.has_place:
        return (0, 0), source.place16(len(source.data.split(b"\n", 1)[0].rstrip(b"\r")))
    last = len(source.data.rstrip())
    if said.start >= last:
        return source.place16(max(0, last - 1)), source.place16(last)
    start, end = source.place16(said.start), source.place16(said.end)
    if start != end:
        return start, end
    line = source.data.split(b"\n")[start[0]].rstrip(b"\r").decode("utf-8", "replace")
    width = len(line.encode("utf-16-le")) // 2
    return (start[0], min(start[1], max(0, width - 1))), (start[0], min(start[1] + 1, width))


def copied(folder: Path, texts: dict[Path, str], copy: Path) -> None:
    """Makes the copy of a folder's sources: the texts that are not saved, and links to all others."""
    for path in {*project.sources(str(folder / "any")), *texts}:
        target = copy / path.name
        if path in texts:
            target.write_bytes(texts[path].encode("utf-8", "replace"))
        else:
            target.symlink_to(path.resolve())


def of_project(name: str, folder: Path, copy: Path) -> Finding | None:
    """Asks the program for one project of the copy, and returns what it refuses it for."""
    answer = program.run(["check", name], folder=copy, seconds=SECONDS)
    said = refusals.of_answer(answer) if answer.status == Status.REFUSED else None
    if said is None:
        return None
    there = copy / said.path
    source = project.Source.read(there) if there.is_file() else project.Source(there, b"")
    explained = explain.explain(said, copy)
    title = explained.title.partition(f": {said.code} ")[2] or explained.title
    return Finding(folder / said.path, *place(source, said), said, title, tuple(explained.hints))


def modules(found: Finding, copy: Path, opened: set[Path]) -> Iterator[Finding]:
    """Gives a refusal that has no place in a file once more on the first line of each open module that the project file names."""
    if found.refusal.has_place or found.path.suffix != ".urp":
        return
    names = {line.strip() for line in (copy / found.path.name).read_text("utf-8", "replace").splitlines()}
    for path in sorted(opened):
        if path.suffix == ".ur" and path.stem in names:
            yield replace(found, path=path)


def of_folder(folder: Path, texts: dict[Path, str], opened: set[Path]) -> Iterator[Finding]:
    """Gives what the program finds in each project of a folder, each refusal once. What takes too long is passed over."""
    seen: set[Finding] = set()
    with tempfile.TemporaryDirectory(prefix="urweb-lsp-") as made:
        copy = Path(made)
        copied(folder, texts, copy)
        for path in sorted(copy.glob("*.urp")):
            try:
                found = of_project(path.name, folder, copy)
            except subprocess.TimeoutExpired:
                continue
            if found and found not in seen:
                seen.add(found)
                yield from (found, *modules(found, copy, opened))


def has_project(folder: Path, texts: dict[Path, str]) -> bool:
    """Whether a project file stands in the folder, or is written in the editor."""
    return any(path.suffix == ".urp" for path in [*project.sources(str(folder / "any")), *texts])
