"""The files of a project: the folder that they stand in, and places in them as lines and columns.

The program alone knows what a project is. Here a project's files are all sources of its folder, which may be more than those that it names."""
from bisect import bisect_right
from dataclasses import dataclass
from functools import cached_property
from pathlib import Path

ENDINGS = (".urp", ".ur", ".urs")
BOM = b"\xef\xbb\xbf"


def project_file(name: str) -> Path:
    """Returns the project file that the program reads for this word: `.urp` is added where it does not end with it."""
    return Path(name if name.endswith(".urp") else f"{name}.urp")


def folder_of(name: str) -> Path:
    """Returns the folder in which the files of the project stand."""
    return project_file(name).parent


def sources(name: str) -> list[Path]:
    """Returns the files of the project's folder that may be its sources, in order of their names."""
    folder = folder_of(name)
    if not folder.is_dir():
        return []
    return sorted(it for it in folder.iterdir() if it.suffix in ENDINGS and it.is_file())


def modules_of(name: str) -> list[str]:
    """Returns the lines of the project file that are names of files beside it, in their order; the program alone says whether it is right."""
    path = project_file(name)
    try:
        lines = path.read_text(encoding="utf-8", errors="replace").split("\n")
    except OSError:
        return []
    return [it.strip() for it in lines if it.strip() and (path.parent / f"{it.strip()}.ur").is_file()]


def main_module(name: str) -> str:
    """Returns the name of the main module, which is the last one, or the project's own where none is there."""
    named = modules_of(name)
    return named[-1] if named else project_file(name).stem


@dataclass(frozen=True, order=True)
class Place:
    """A line and a column of a file, both counted from 1, the column in characters."""

    line: int
    column: int


@dataclass(frozen=True)
class Source:
    """A file as its bytes, in which offsets are places."""

    path: Path
    data: bytes

    @classmethod
    def read(cls, path: Path) -> "Source":
        return cls(path, path.read_bytes())

    @cached_property
    def _starts(self) -> list[int]:
        """Returns the offset at which each line begins."""
        return [0] + [at + 1 for at, byte in enumerate(self.data) if byte == 0x0A]

    def lines(self) -> int:
        """Returns the number of lines; a last line end begins none."""
        return len(self._starts) - (1 if self.data.endswith(b"\n") else 0) if self.data else 1

    def _line_at(self, offset: int) -> int:
        return bisect_right(self._starts, max(0, min(offset, len(self.data)))) - 1

    def place(self, offset: int) -> Place:
        """Returns the place of an offset; one beyond the end is the end."""
        offset = max(0, min(offset, len(self.data)))
        line = self._line_at(offset)
        return Place(line + 1, len(self._text(self._starts[line], offset)) + 1)

    def place16(self, offset: int) -> tuple[int, int]:
        """Returns the line and the column of an offset as editors' protocols count: from 0, in UTF-16 units."""
        offset = max(0, min(offset, len(self.data)))
        line = self._line_at(offset)
        return line, len(self._text(self._starts[line], offset).encode("utf-16-le")) // 2

    def line(self, number: int) -> str:
        """Returns the text of a line, counted from 1, without its end."""
        at = self._starts[number - 1]
        end = self._starts[number] if number < len(self._starts) else len(self.data)
        return self._text(at, end).rstrip("\r\n")

    def _text(self, at: int, end: int) -> str:
        """Returns a part as text, each byte that is no UTF-8 as one sign; a mark of byte order at the front counts as no character."""
        part = self.data[at:end]
        if at == 0 and part.startswith(BOM):
            part = part[len(BOM):]
        return part.decode("utf-8", "replace")
