"""What stands around the place of a refusal, for those who guess what was meant."""
from dataclasses import dataclass
from functools import cached_property
from pathlib import Path

from urweb_companion.project import Source
from urweb_companion.refusals import Refusal
from urweb_companion.tokens import STATEMENTS, Token, open_at, tokens


@dataclass(frozen=True)
class Scene:
    """A refusal, the file that it names, and the folder in which the program ran."""

    refusal: Refusal
    source: Source | None
    folder: Path

    @cached_property
    def tokens(self) -> list[Token]:
        return tokens(self.source.data) if self.source else []

    @cached_property
    def at(self) -> int:
        """Returns the index of the first token that ends behind the place, or their number."""
        start = self.refusal.start
        return next((at for at, it in enumerate(self.tokens) if it.end > start), len(self.tokens))

    @property
    def here(self) -> Token | None:
        return self.token(0)

    def token(self, distance: int) -> Token | None:
        """Returns the token so many behind the place, or before it."""
        at = self.at + distance
        return self.tokens[at] if 0 <= at < len(self.tokens) else None

    def text(self, distance: int) -> str:
        """Returns the text of such a token, empty where there is none."""
        token = self.token(distance)
        return token.text if token else ""

    @cached_property
    def part(self) -> str:
        """Returns the text at the place."""
        if self.source is None:
            return ""
        return self.source.data[self.refusal.start:self.refusal.end].decode("utf-8", "replace")

    @cached_property
    def open(self) -> list[Token]:
        """Returns what was begun before the place and goes on there."""
        return open_at(self.tokens, self.refusal.start)

    @property
    def in_sql(self) -> bool:
        """Whether the place is in a statement, and in no antiquote of it."""
        for token in reversed(self.open):
            if token.text in STATEMENTS:
                return True
            if token.text != "(":
                return False
        return False

    @cached_property
    def line_before(self) -> str:
        """Returns the text of the place's line before it."""
        if self.source is None:
            return ""
        data = self.source.data
        return data[data.rfind(b"\n", 0, self.refusal.start) + 1:self.refusal.start].decode("utf-8", "replace")

    @property
    def is_at_end(self) -> bool:
        """Whether nothing but blanks stands behind the place."""
        return self.source is not None and not self.source.data[self.refusal.start:].strip()

    def where(self, token: Token) -> str:
        """Returns the line and column of a token, as they are said."""
        assert self.source is not None
        place = self.source.place(token.start)
        return f"{place.line}:{place.column}"
