"""Tables as CSV, and as tables of a database that sqlite3's shell shows column by column."""
import csv
import sqlite3
from collections.abc import Iterable
from contextlib import closing
from pathlib import Path
from typing import TextIO

from urweb_companion.layout import Refused, Table
from urweb_companion.printing import rows
from urweb_companion.store import Store, placed
from urweb_companion.values import cell_of

# `INT` and not `INTEGER`: a key of one column is no other name of SQLite's own number of rows then, which keeps their order.
TYPES = {"int": "INT", "string": "TEXT", "bool": "BOOLEAN"}
SEQUENCES = "sequences"


def write_csv(store: Store, table: Table, output: TextIO) -> None:
    """Writes the names of the columns and then a line for each row."""
    writer = csv.writer(output, lineterminator="\n")
    writer.writerow(it.name for it in table.columns)
    for _, row in store.rows(table):
        writer.writerow(cell_of(*it) for it in zip(table.columns, row, strict=True))


def write_database(store: Store, tables: list[Table], path: Path) -> str:
    """Writes a database with the tables and the sequences, and returns what it has."""
    names = dict(zip([it.name for it in tables] + [SEQUENCES], distinct([*_names(tables), SEQUENCES]), strict=True))
    with placed(path) as draft:
        try:
            with closing(sqlite3.connect(draft, isolation_level=None)) as base:
                counts = _fill(store, tables, names, base)
        except sqlite3.Error as why:
            raise Refused(f"{path} cannot be written: {why}") from None
    return ", ".join(f"{names[name]} with {rows(count)}" for name, count in counts.items())


def _fill(store: Store, tables: list[Table], names: dict[str, str], base: sqlite3.Connection) -> dict[str, int]:
    """Makes and fills the tables, and returns how many rows each has."""
    base.execute("BEGIN")
    for table in tables:
        base.execute(_create(table, names[table.name]))
        marks = ", ".join("?" for _ in table.columns)
        base.executemany(f"INSERT INTO {quoted(names[table.name])} VALUES ({marks})", (row for _, row in store.rows(table)))
    base.execute(f"CREATE TABLE {quoted(names[SEQUENCES])} (Name TEXT NOT NULL, Next INT NOT NULL)")
    for name in store.schema.sequences:
        base.execute(f"INSERT INTO {quoted(names[SEQUENCES])} VALUES (?, ?)", (name, store.number(name)))
    base.execute("COMMIT")
    return {it.name: store.size(it)[0] for it in tables} | {SEQUENCES: len(store.schema.sequences)}


def _names(tables: list[Table]) -> list[str]:
    """Returns a name for each table: without its module where no other has it."""
    shorts = [it.short for it in tables]
    return [it.short if shorts.count(it.short) == 1 else it.name for it in tables]


def _create(table: Table, name: str) -> str:
    """Returns the statement that makes a table."""
    columns = dict(zip([it.name for it in table.columns], distinct(it.name for it in table.columns), strict=True))
    parts = [f"{quoted(columns[it.name])} {TYPES[it.inner]}{'' if it.is_optional else ' NOT NULL'}" for it in table.columns]
    for at, key in enumerate(table.keys):
        word = "PRIMARY KEY" if at == 0 and table.has_primary else "UNIQUE"
        parts.append(f"{word} ({', '.join(quoted(columns[it]) for it in key)})")
    return f"CREATE TABLE {quoted(name)} ({', '.join(parts)})"


def distinct(names: Iterable[str]) -> list[str]:
    """Returns names that differ for SQLite too, which does not tell capitals from small letters."""
    taken: set[str] = set()
    found = []
    for name in names:
        candidates = (name if at == 1 else f"{name}_{at}" for at in range(1, len(taken) + 2))
        found.append(next(it for it in candidates if it.lower() not in taken))
        taken.add(found[-1].lower())
    return found


def quoted(name: str) -> str:
    return '"' + name.replace('"', '""') + '"'
