"""The schema's text in a file of tables, as docs/SERVING.md describes it: tables with columns and keys, and sequences."""
from collections.abc import Iterable
from dataclasses import dataclass

from urweb_companion.clear import clear

KEY_WORDS = ("primary", "unique")
KINDS = ("int", "string", "bool")
OPTIONAL = "?"


class Refused(Exception):
    """What was asked cannot be done; the text says why."""


class Damaged(Exception):
    """What stands in a file of tables is not as docs/SERVING.md has it; the text says where and what."""


@dataclass(frozen=True)
class Column:
    """A column: its name and its kind."""

    name: str
    kind: str

    @property
    def is_optional(self) -> bool:
        """Whether the column may be empty."""
        return self.kind.endswith(OPTIONAL)

    @property
    def inner(self) -> str:
        """Returns the kind of the values that are not empty."""
        return self.kind.removesuffix(OPTIONAL)

    @property
    def type(self) -> str:
        """Returns the type as the language has it."""
        return f"option {self.inner}" if self.is_optional else self.kind

    def __str__(self) -> str:
        return f"{self.name} : {self.type}"


@dataclass(frozen=True)
class Table:
    """A table by its whole name, `M.t`, with its columns in the order of their names' bytes, and its keys as names of columns."""

    name: str
    columns: tuple[Column, ...]
    keys: tuple[tuple[str, ...], ...] = ()
    has_primary: bool = False

    @property
    def short(self) -> str:
        """Returns the name without its module."""
        return self.name.rpartition(".")[2]

    def column(self, name: str) -> Column | None:
        return next((it for it in self.columns if it.name == name), None)

    def places(self, key: tuple[str, ...]) -> tuple[int, ...]:
        """Returns where the columns of a key stand in a row."""
        names = [it.name for it in self.columns]
        return tuple(names.index(name) for name in key)

    def extends(self, kept: "Table") -> bool:
        """Whether the program takes the kept table as this one: columns that may be empty are added, and nothing else is another."""
        same = (self.name, self.keys, self.has_primary) == (kept.name, kept.keys, kept.has_primary)
        new = [it for it in self.columns if it not in kept.columns]
        return same and len(self.columns) - len(new) == len(kept.columns) and all(it.is_optional and kept.column(it.name) is None for it in new)

    def line(self) -> str:
        words = ["table", self.name, *(f"{it.name}:{it.kind}" for it in self.columns)]
        for at, key in enumerate(self.keys):
            words += ["primary" if at == 0 and self.has_primary else "unique", *key]
        return " ".join(words)


@dataclass(frozen=True)
class Schema:
    """The tables and the sequences in their order."""

    tables: tuple[Table, ...]
    sequences: tuple[str, ...]

    def extends(self, kept: "Schema") -> bool:
        """Whether the program takes a file of the kept schema for this one."""
        tables = len(self.tables) == len(kept.tables) and all(new.extends(old) for new, old in zip(self.tables, kept.tables, strict=True))
        return tables and self.sequences == kept.sequences

    def text(self) -> str:
        return "".join(f"{it}\n" for it in [*(table.line() for table in self.tables), *(f"sequence {name}" for name in self.sequences)])


def schema_of(text: str) -> Schema:
    """Returns the schema of a text."""
    tables, sequences = [], []
    for line in text.split("\n"):
        match line.split(" "):
            case [""]:
                continue
            case ["table", name, *words] if name:
                tables.append(_table(name, words))
            case ["sequence", name] if name:
                sequences.append(name)
            case _:
                raise Damaged(f"the schema has a line that is none of it: {line!r}")
    return Schema(tuple(tables), tuple(sequences))


def _table(name: str, words: Iterable[str]) -> Table:
    columns: list[Column] = []
    keys: list[list[str]] = []
    has_primary = False
    for word in words:
        if word in KEY_WORDS:
            has_primary = has_primary or word == "primary"
            keys.append([])
        elif keys:
            keys[-1].append(word)
        else:
            columns.append(_column(name, word))
    table = Table(name, tuple(columns), tuple(map(tuple, keys)), has_primary)
    for column in (column for key in table.keys for column in key):
        if table.column(column) is None:
            raise Damaged(f"a key of {name} has the column {column!r}, which is none of it")
    return table


def _column(table: str, word: str) -> Column:
    name, colon, kind = word.partition(":")
    if not name or not colon:
        raise Damaged(f"the table {table} has {word!r} in the place of a column")
    if kind.removesuffix(OPTIONAL) not in KINDS:
        raise Damaged(f"{table}.{name} is of the kind {kind!r}; known are {', '.join(KINDS)}, and each with {OPTIONAL}")
    return Column(name, kind)


def named(wholes: Iterable[str], name: str) -> list[str]:
    """Returns the whole names that a name may stand for: itself, or all that it is without their modules."""
    wholes = list(wholes)
    return [name] if name in wholes else [it for it in wholes if it.partition(".")[2] == name]


def one(names: Iterable[str], name: str, none: str) -> str:
    """Returns the one whole name that a name stands for."""
    names = list(names)
    found = named(names, name)
    if not found:
        raise Refused(f"{none} {clear(name)}; known are {', '.join(names) or 'none'}")
    if len(found) > 1:
        raise Refused(f"{name} may be {' or '.join(found)}")
    return found[0]
