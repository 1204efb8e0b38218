"""Types as the program prints them, written as a source writes them: `$[A = (int); ]` is `{A : int}`."""
import re
from dataclasses import dataclass

PIECE = re.compile(r"\s*(->|[()\[\]$;=]|[A-Za-z_#][A-Za-z0-9_'.]*)")
ATOM, APPLIED, ARROW = 2, 1, 0


class _NotRead(Exception):
    """The text is no type of the forms known here."""


@dataclass
class _Reader:
    text: str
    at: int = 0

    def next(self) -> str:
        it = PIECE.match(self.text, self.at)
        return it[1] if it else ""

    def take(self, wanted: str = "") -> str:
        it = PIECE.match(self.text, self.at)
        if it is None or (wanted and it[1] != wanted):
            raise _NotRead
        self.at = it.end()
        return it[1]

    def arrow(self) -> tuple[str, int]:
        left, level = self.applied()
        if self.next() != "->":
            return left, level
        self.take()
        right, _ = self.arrow()
        return f"{_within(left, level, APPLIED)} -> {right}", ARROW

    def applied(self) -> tuple[str, int]:
        text, level = self.atom()
        while self.next() and self.next() not in {")", "]", ";", "->", "="}:
            argument, inner = self.atom()
            text, level = f"{text} {_within(argument, inner, ATOM)}", APPLIED
        return text, level

    def atom(self) -> tuple[str, int]:
        first = self.take()
        if first == "(":
            inside = self.arrow()
            self.take(")")
            return inside
        if first == "$":
            self.take("[")
            fields = self.fields()
            return ("{" + ", ".join(f"{name} : {it}" for name, it in fields) + "}" if fields else "unit"), ATOM
        if first == "[":
            return "[" + ", ".join(f"{name} = {it}" for name, it in self.fields()) + "]", ATOM
        if not (first[0].isalpha() or first[0] in "_#"):
            raise _NotRead
        return first, ATOM

    def fields(self) -> list[tuple[str, str]]:
        """Reads the fields up to the bracket that ends them, and that too."""
        found = []
        while self.next() != "]":
            name = self.take()
            self.take("=")
            text, _ = self.arrow()
            found.append((name, text))
            if self.next() == ";":
                self.take()
        self.take("]")
        return found


def _within(text: str, level: int, wanted: int) -> str:
    return text if level >= wanted else f"({text})"


def as_source(text: str) -> str:
    """Returns the type as a source writes it, or the text as it is where it is no type of these forms."""
    reader = _Reader(text)
    try:
        written, _ = reader.arrow()
    except _NotRead:
        return text
    return written if not reader.text[reader.at:].strip() else text


def fields_of(text: str) -> dict[str, str]:
    """Returns the fields of a record or row as the program prints it, with their types; none where it is another type."""
    reader = _Reader(text)
    try:
        if reader.next() == "$":
            reader.take()
        reader.take("[")
        return dict(reader.fields())
    except _NotRead:
        return {}
