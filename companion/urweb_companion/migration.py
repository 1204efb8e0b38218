"""What becomes of each table and sequence of a file when its project's change: the plan of `migrate`, before anything is written."""
from collections.abc import Iterator, Sequence
from dataclasses import dataclass, field

from urweb_companion.clear import clear
from urweb_companion.layout import Column, Refused, Schema, Table, named, one
from urweb_companion.store import GREATEST_NUMBER, Numbered, Store
from urweb_companion.values import Row, Value, text_of, value_of


@dataclass(frozen=True)
class Given:
    """The same value in each row."""

    value: Value


@dataclass(frozen=True)
class Taken:
    """What a column of the old table has, read as a value of the new kind."""

    column: Column


Origin = Given | Taken


@dataclass
class TablePlan:
    """Where the rows of a table come from: the old table, and for each column its origin, which is missing where it is not known. A new
    column that may be empty is so, unless a word says otherwise."""

    table: Table
    old: Table | None
    count: int = 0
    origins: dict[str, Origin] = field(default_factory=dict)

    def missing(self) -> list[Column]:
        """Returns the columns without an origin; a table without rows needs none."""
        return [it for it in self.table.columns if it.name not in self.origins] if self.count else []

    def dropped(self) -> list[Column]:
        """Returns the columns of the old table that no column takes over."""
        taken = {it.column.name for it in self.origins.values() if isinstance(it, Taken)}
        return [it for it in self.old.columns if it.name not in taken] if self.old else []

    def set(self, column: Column, text: str) -> None:
        """Takes a word of the command line as the origin of a column."""
        origin = self._origin(column, text)
        kept = self.origins.get(column.name)
        if isinstance(origin, Given) and isinstance(kept, Taken):
            raise Refused(f"{self.table.name}.{column.name} has its values already, and takes no other")
        self.origins[column.name] = origin

    def _origin(self, column: Column, text: str) -> Origin:
        before, dot, name = text.rpartition(".")
        if dot and self.old is not None and before in (self.old.name, self.old.short):
            old = self.old.column(name)
            if old is None:
                raise Refused(f"{self.old.name} had no column {clear(name)}; a text that looks like one stands in quotes of its own")
            return Taken(old)
        if column.kind == "string" and len(text) > 1 and text[0] == text[-1] == '"':
            text = text[1:-1]
        try:
            return Given(value_of(column, text))
        except ValueError as why:
            raise Refused(f"{self.table.name}.{column.name}: {why}") from None

    def rows(self, store: Store) -> Iterator[Numbered]:
        """Returns the rows of the new table."""
        if self.old is None:
            return
        places = {it.name: at for at, it in enumerate(self.old.columns)}
        for number, row in store.rows(self.old):
            yield number, tuple(self._value(column, places, number, row) for column in self.table.columns)

    def _value(self, column: Column, places: dict[str, int], number: int, row: Row) -> Value:
        origin = self.origins[column.name]
        if isinstance(origin, Given):
            return origin.value
        value = row[places[origin.column.name]]
        return value if origin.column.kind == column.kind else self._other(origin.column, column, number, value)

    def _other(self, old: Column, column: Column, number: int, value: Value) -> Value:
        """Returns the value that is not empty, an empty one where the column may be so, and what the text of a value of another kind spells."""
        if value is None and not column.is_optional:
            raise Refused(f"{self.table.name}.{column.name}, row {number}: the old value is empty")
        if value is None or old.inner == column.inner:
            return value
        try:
            return value_of(column, text_of(value))
        except ValueError as why:
            raise Refused(f"{self.table.name}.{column.name}, row {number}: {why}") from None


@dataclass(frozen=True)
class Number:
    """The next number of a sequence, and the old sequence that it is of."""

    name: str
    old: str | None
    next: int


@dataclass
class Plan:
    """What becomes of all tables and sequences, and what is dropped."""

    tables: list[TablePlan]
    sequences: list[Number]
    dropped_tables: list[tuple[Table, int]]
    dropped_sequences: list[str]


@dataclass(frozen=True)
class _Words:
    """The words of the command line by what they speak of, by whole names."""

    columns: list[tuple[str, str, str]]
    tables: dict[str, str]
    sequences: dict[str, str | int]


def plan_of(store: Store, schema: Schema, words: Sequence[str]) -> Plan:
    """Returns the plan for a project's tables and sequences from those of a file and the words `T.C=value`, `T.New=T.Old`, `t=old`, `s=old`, `s=n`."""
    said = _read_words(store.schema, schema, words)
    tables = [_table_plan(store, it, said.tables.get(it.name, it.name)) for it in schema.tables]
    for name, column, text in said.columns:
        plan = next(it for it in tables if it.table.name == name)
        plan.set(_column(plan.table, column), text)
    sequences = [_number(store, it, said.sequences.get(it, it)) for it in schema.sequences]
    taken = {it.old.name for it in tables if it.old}
    drawn = {it.old for it in sequences}
    return Plan(
        tables,
        sequences,
        [(it, store.size(it)[0]) for it in store.schema.tables if it.name not in taken],
        [it for it in store.schema.sequences if it not in drawn],
    )


def _table_plan(store: Store, table: Table, old_name: str) -> TablePlan:
    old = next((it for it in store.schema.tables if it.name == old_name), None)
    plan = TablePlan(table, old)
    if old is not None:
        plan.count = store.size(old)[0]
        plan.origins = {it.name: Taken(it) for it in table.columns if old.column(it.name) == it}
        plan.origins |= {it.name: Given(None) for it in table.columns if it.is_optional and old.column(it.name) is None}
    return plan


def _column(table: Table, name: str) -> Column:
    column = table.column(name)
    if column is None:
        raise Refused(f"{table.name} has no column {clear(name)}; it has {', '.join(it.name for it in table.columns)}")
    return column


def _number(store: Store, name: str, origin: str | int) -> Number:
    if isinstance(origin, int):
        return Number(name, name if name in store.schema.sequences else None, origin)
    if origin in store.schema.sequences:
        return Number(name, origin, store.number(origin))
    return Number(name, None, 1)


def _read_words(old: Schema, new: Schema, words: Sequence[str]) -> _Words:
    said = _Words([], {}, {})
    seen = set()
    for word in words:
        left, equal, right = word.partition("=")
        if not equal or not left:
            raise Refused(f"{clear(word)}: a word is T.C=value, T.New=T.Old, t=old, s=old or s=n")
        name = _read_word(old, new, said, left, right)
        if name in seen:
            raise Refused(f"{clear(name)} is said twice")
        seen.add(name)
    return said


def _read_word(old: Schema, new: Schema, said: _Words, left: str, right: str) -> str:
    """Puts a word where it belongs, and returns the whole name of what it speaks of."""
    before, _, last = left.rpartition(".")
    if before and last[:1].isupper():
        table = one([it.name for it in new.tables], before, "the project has no table")
        said.columns.append((table, last, right))
        return f"{table}.{last}"
    is_number = right.isascii() and right.isdigit()
    tables = [] if is_number else named((it.name for it in new.tables), left)
    sequences = named(new.sequences, left)
    if tables and named((it.name for it in old.tables), right):
        table = one(tables, left, "")
        said.tables[table] = one([it.name for it in old.tables], right, "")
        return table
    if sequences:
        name = one(sequences, left, "")
        said.sequences[name] = _next(right) if is_number else one(old.sequences, right, "the file has no sequence")
        return name
    raise Refused(f"the file has no table {clear(right)}" if tables else f"the project has no table or sequence {clear(left)}")


def _next(digits: str) -> int:
    number = int(digits[:20])
    if not 1 <= number <= GREATEST_NUMBER:
        raise Refused(f"{clear(digits)} is no number for a sequence")
    return number
