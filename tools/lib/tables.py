"""A file of tables as stock SQLite reads and writes it: bodies of rows, and the notes in a file."""
import contextlib
import shutil
import sqlite3
import struct
import tempfile
import urllib.request
from collections.abc import Iterable, Sequence
from pathlib import Path

Value = int | bool | str
# A column: its name and its kind.
Column = tuple[str, str]

# Rows of `Tab` 0 have the schema's text, those of 1 the next numbers of sequences, and those from 2 on the tables in order.
SCHEMA, SEQUENCES, FIRST_TABLE = 0, 1, 2
# What the text of a file of the second layout begins with; without it a file is of the first one, whose rows do not name their columns.
LAYOUT = b"layout 2\n"
# The notes stand in the first table; the columns of a note are in the order of their names: its text, its number and its owner.
NOTES = FIRST_TABLE
NOTE: tuple[Column, ...] = (("Body", "string"), ("Id", "int"), ("Owner", "string"))
SIZES = {"int": 8, "bool": 1, "string": 4}


def link(path: Path | str, read_only: bool = True) -> sqlite3.Connection:
    """Returns a connection that waits for nobody. Without `read_only` the caller begins and ends transactions itself."""
    address = f"file:{urllib.request.pathname2url(str(path))}" + ("?mode=ro" if read_only else "")
    return sqlite3.connect(address, uri=True, timeout=0, isolation_level=None)


def body_of(columns: Sequence[Column], values: Iterable[Value]) -> bytes:
    """Returns the body of a row with these values: each behind the name of its column."""
    return b"".join(value_as_bytes(name) + value_as_bytes(value) for (name, _), value in zip(columns, values, strict=True))


def first_body(values: Iterable[Value]) -> bytes:
    """Returns the body of a row with these values in the first layout, without names."""
    return b"".join(value_as_bytes(value) for value in values)


def note_body(text: str, number: int, owner: str) -> bytes:
    """Returns the body of a note."""
    return body_of(NOTE, (text, number, owner))


def value_as_bytes(value: Value) -> bytes:
    """Returns a value as it stands in a body."""
    if isinstance(value, bool):
        return struct.pack(">?", value)
    if isinstance(value, int):
        return struct.pack(">q", value)
    text = value.encode()
    return struct.pack(">I", len(text)) + text


def values_of(body: bytes, columns: Sequence[Column]) -> list[bytes]:
    """Returns the bytes of each column of a body that has no empty one, of a text without its length. A ValueError says that it is none."""
    return _whole(columns_of(body, columns))


def columns_of(body: bytes, columns: Sequence[Column]) -> list[bytes | None]:
    """Returns the bytes of each column of a body, of a text without its length. Where a kind ends in `?` a column may be empty, which is None.

    A ValueError says that the body has another length, lacks a column, or that an option begins with neither 0 nor 1.
    """
    found = []
    for name, kind in columns:
        front = value_as_bytes(name)
        if body.startswith(front):
            value, body = _column_in(body[len(front):], kind)
        elif kind.endswith("?"):
            value = None
        else:
            raise ValueError(f"the column {name} is missing")
        found.append(value)
    if body:
        raise ValueError("a body is too long")
    return found


def first_values_of(body: bytes, columns: Sequence[Column]) -> list[bytes]:
    """Returns the same of a body in the first layout."""
    found = []
    for _, kind in columns:
        value, body = _column_in(body, kind)
        found.append(value)
    if body:
        raise ValueError("a body is too long")
    return _whole(found)


def _whole(values: list[bytes | None]) -> list[bytes]:
    found = [value for value in values if value is not None]
    if len(found) < len(values):
        raise ValueError("a column is empty")
    return found


def _column_in(body: bytes, kind: str) -> tuple[bytes | None, bytes]:
    return option_in(body, kind[:-1]) if kind.endswith("?") else value_in(body, kind)


def option_in(body: bytes, kind: str) -> tuple[bytes | None, bytes]:
    """Returns the bytes of a value that may be empty, None where it is, and what stands after it."""
    front, body = halves(body, 1)
    if front == b"\0":
        return None, body
    if front != b"\1":
        raise ValueError("an option begins with 0 or 1")
    return value_in(body, kind)


def value_in(body: bytes, kind: str) -> tuple[bytes, bytes]:
    """Returns the bytes of a value, of a text without its length, and what stands after it."""
    value, body = halves(body, SIZES[kind])
    return halves(body, int.from_bytes(value, "big")) if kind == "string" else (value, body)


def halves(body: bytes, size: int) -> tuple[bytes, bytes]:
    """Returns the front of a body and what stands after it."""
    if len(body) < size:
        raise ValueError("a body is too short")
    return body[:size], body[size:]


def number_of(value: bytes) -> int:
    """Returns the number that the bytes of a column are."""
    return int.from_bytes(value, "big", signed=True)


def check(base: sqlite3.Connection) -> None:
    """A ValueError says that a database is not whole."""
    said = base.execute("PRAGMA integrity_check").fetchall()
    if said != [("ok",)]:
        raise ValueError(f"integrity_check says {said}")


def notes(path: Path | str) -> list[tuple[int, str]]:
    """Returns the notes in a file of either layout in order: their numbers and texts. The file must be sound."""
    with contextlib.closing(link(path, False)) as base:
        check(base)
        read = values_of if is_second(base) else first_values_of
        rows = base.execute("SELECT Body FROM ur_row WHERE Tab = ? ORDER BY Num", (NOTES,)).fetchall()
    each = [read(body, NOTE) for (body,) in rows]
    return [(number_of(number), text.decode()) for text, number, _ in each]


def is_second(base: sqlite3.Connection) -> bool:
    """Whether a file is of the second layout."""
    text: bytes = base.execute("SELECT Body FROM ur_row WHERE Tab = ? AND Num = 0", (SCHEMA,)).fetchone()[0]
    return text.startswith(LAYOUT)


def notes_of_copy(folder: Path | str) -> list[tuple[int, str]]:
    """Returns the notes in a copy of the file `notes.db` of a folder with all that stands beside it, which is left as it is."""
    with tempfile.TemporaryDirectory() as copy:
        shutil.copytree(folder, copy, dirs_exist_ok=True)
        return notes(f"{copy}/notes.db")


def put_notes(base: sqlite3.Connection, texts: Iterable[str], owner: str) -> None:
    """Puts notes of an owner, numbered from 1, into tables that a server has made without a note, in one transaction."""
    _put(base, [note_body(text, number, owner) for number, text in enumerate(texts, 1)])


def put_first_notes(base: sqlite3.Connection, texts: Iterable[str], owner: str) -> None:
    """The same, and brings the file to the first layout."""
    _put(base, [first_body((text, number, owner)) for number, text in enumerate(texts, 1)])
    base.execute("UPDATE ur_row SET Body = substr(Body, ?) WHERE Tab = ? AND Num = 0", (len(LAYOUT) + 1, SCHEMA))


def _put(base: sqlite3.Connection, bodies: list[bytes]) -> None:
    base.execute("BEGIN")
    base.executemany("INSERT INTO ur_row (Tab, Num, Body) VALUES (?, ?, ?)", ((NOTES, at, body) for at, body in enumerate(bodies)))
    base.execute("UPDATE ur_row SET Body = ? WHERE Tab = ? AND Num = 0", (value_as_bytes(len(bodies) + 1), SEQUENCES))
    base.execute("COMMIT")
