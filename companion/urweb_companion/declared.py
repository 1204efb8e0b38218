"""What the sources of a folder seem to declare, read from their tokens alone: to tell names that are near, and where pages and statements stand.

It knows neither scopes nor types: each `fun`, `and`, `val`, `table` and so on before a name is taken for a declaration of it."""
from dataclasses import dataclass
from functools import cached_property
from pathlib import Path

from urweb_companion.project import Source, sources
from urweb_companion.tokens import Token, tokens

SORTS = frozenset({"fun", "and", "val", "table", "sequence", "cookie", "type", "con", "datatype"})


@dataclass(frozen=True)
class Declared:
    """A name and the word before it, and where the name stands in its file's tokens."""

    sort: str
    name: str
    at: int
    token: Token


@dataclass(frozen=True)
class Module:
    """A source and what it seems to declare."""

    source: Source

    @property
    def name(self) -> str:
        """Returns the name that programs call it by."""
        stem = self.source.path.stem
        return stem[:1].upper() + stem[1:]

    @cached_property
    def tokens(self) -> list[Token]:
        return tokens(self.source.data)

    @cached_property
    def declared(self) -> list[Declared]:
        found = []
        for at in range(len(self.tokens) - 1):
            before, name = self.tokens[at], self.tokens[at + 1]
            if before.is_word(*SORTS) and name.is_name:
                found.append(Declared("fun" if before.text == "and" else before.text, name.text, at + 1, name))
        return found

    def find(self, name: str, *sorts: str) -> Declared | None:
        """Returns the first declaration of a name of one of these sorts."""
        return next((it for it in self.declared if it.name == name and (not sorts or it.sort in sorts)), None)

    def columns(self, table: Declared) -> dict[str, str]:
        """Returns the columns of a table that is declared by a record, with the texts of their types."""
        return self.fields_at(table.at + 2)

    def fields_at(self, at: int) -> dict[str, str]:
        """Returns the fields of the record type that begins there, also where a name of a type of this module stands there."""
        fields = fields_from(self.tokens, at)
        if fields or at >= len(self.tokens) or not self.tokens[at].is_name:
            return fields
        named = self.find(self.tokens[at].text, "type")
        return fields_from(self.tokens, named.at + 2) if named and named.at + 2 != at else {}

    def named(self, text: str) -> str:
        """Returns what a name of a type of this module stands for where that is one word, or the text as it is."""
        named = self.find(text, "type")
        if named is None or named.at + 2 >= len(self.tokens):
            return text
        stands, behind = self.tokens[named.at + 2], self.tokens[named.at + 3] if named.at + 3 < len(self.tokens) else None
        return stands.text if stands.is_name and (behind is None or behind.text in SORTS or behind.is_sign("(")) else text


def fields_from(found: list[Token], at: int) -> dict[str, str]:
    """Returns the fields of the record type whose brace is the token there, none where it is no brace."""
    if at >= len(found) or not found[at].is_sign("{"):
        return {}
    fields: dict[str, str] = {}
    name, depth = "", 0
    for index in range(at + 1, len(found) - 1):
        token = found[index]
        if depth == 0 and token.is_sign("}"):
            break
        if depth == 0 and token.kind == "word" and found[index + 1].is_sign(":"):
            name = token.text
            fields[name] = ""
        elif name and not (depth == 0 and token.is_sign(":", ",")):
            fields[name] = f"{fields[name]} {token.text}".strip()
        depth += token.is_sign("{", "(", "[") - token.is_sign("}", ")", "]")
    return fields


def modules(name: str) -> list[Module]:
    """Returns the modules of the project's folder, those that cannot be read left out."""
    found = []
    for path in sources(name):
        if path.suffix == ".ur":
            try:
                found.append(Module(Source.read(path)))
            except OSError:
                continue
    return found


def module_of(source: Source | None) -> Module:
    return Module(source or Source(Path(), b""))
