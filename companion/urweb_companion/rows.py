"""The bytes of rows in a file of tables, as docs/SERVING.md describes them: this module alone knows what a layout's rows look like."""
import struct
from typing import Protocol

from urweb_companion.layout import Column, Damaged
from urweb_companion.values import Row, Value, most_bytes

Columns = tuple[Column, ...]

# What stands before the value of a column that may be empty.
NONE, SOME = b"\0", b"\1"


class Layout(Protocol):
    """How rows stand in a file."""

    def read(self, columns: Columns, body: bytes) -> Row:
        """Returns the row in a body; Damaged where it is none."""

    def write(self, columns: Columns, row: Row) -> bytes:
        """Returns the body of a row, whose values are of the columns' kinds."""


class First:
    """The first layout: the columns' values one after the other, in the order of the columns' names."""

    def read(self, columns: Columns, body: bytes) -> Row:
        at, values = 0, []
        for column in columns:
            value, at = _read_value(column, body, at)
            values.append(value)
        if at != len(body):
            raise Damaged(f"{len(body) - at} bytes stand behind the last column")
        return tuple(values)

    def write(self, columns: Columns, row: Row) -> bytes:
        return b"".join(_column_body(*it) for it in zip(columns, row, strict=True))


class Second:
    """The second layout: each column's name and then its value, in the same order. A column that is missing is empty, where it may be so."""

    def read(self, columns: Columns, body: bytes) -> Row:
        at, values = 0, []
        for column in columns:
            name = _name_body(column)
            if body.startswith(name, at):
                value, at = _read_value(column, body, at + len(name))
            elif column.is_optional:
                value = None
            else:
                raise Damaged(f"the row lacks {column.name}, or has it in another place")
            values.append(value)
        if at != len(body):
            raise Damaged(f"{len(body) - at} bytes stand behind the last column")
        return tuple(values)

    def write(self, columns: Columns, row: Row) -> bytes:
        return b"".join(_name_body(column) + _column_body(column, value) for column, value in zip(columns, row, strict=True))


SECOND_LINE = "layout 2"


def split(text: str) -> tuple[Layout, str]:
    """Returns the layout of a file and the text of its schema, from the text that stands in it."""
    first, end, rest = text.partition("\n")
    if first == SECOND_LINE and end:
        return Second(), rest
    if first.startswith("layout ") and end:
        raise Damaged(f"the file is of {first!r}, which this companion does not know")
    return First(), text


def _name_body(column: Column) -> bytes:
    return _value_body(column.name)


def _read_value(column: Column, body: bytes, at: int) -> tuple[Value, int]:
    """Returns the value of a column at a place, and the place behind it."""
    if not column.is_optional:
        return _read_inner(column, body, at)
    mark = _part(column, body, at, 1)
    if mark == NONE:
        return None, at + 1
    if mark != SOME:
        raise Damaged(f"{column.name} begins with neither 0 nor 1")
    return _read_inner(column, body, at + 1)


def _read_inner(column: Column, body: bytes, at: int) -> tuple[Value, int]:
    """Returns the value that is not empty at a place, and the place behind it."""
    match column.inner:
        case "int":
            return struct.unpack(">q", _part(column, body, at, 8))[0], at + 8
        case "bool":
            return _bool_of(column, _part(column, body, at, 1)), at + 1
        case _:
            size = struct.unpack(">I", _part(column, body, at, 4))[0]
            return _text_of(column, _part(column, body, at + 4, size)), at + 4 + size


def _part(column: Column, body: bytes, at: int, size: int) -> bytes:
    if len(body) - at < size:
        raise Damaged(f"the row ends within {column.name}")
    return body[at:at + size]


def _bool_of(column: Column, part: bytes) -> bool:
    if part not in (b"\0", b"\1"):
        raise Damaged(f"{column.name} is no bool")
    return part == b"\1"


def _text_of(column: Column, part: bytes) -> str:
    if len(part) > most_bytes(column):
        raise Damaged(f"{column.name} has {len(part)} bytes, more than {most_bytes(column)}")
    try:
        return part.decode()
    except UnicodeDecodeError:
        raise Damaged(f"{column.name} is not UTF-8") from None


def _column_body(column: Column, value: Value) -> bytes:
    if value is None:
        return NONE
    return (SOME if column.is_optional else b"") + _value_body(value)


def _value_body(value: int | str | bool) -> bytes:
    if isinstance(value, bool):
        return bytes([value])
    if isinstance(value, int):
        return struct.pack(">q", value)
    text = value.encode()
    return struct.pack(">I", len(text)) + text


def number_body(number: int) -> bytes:
    """Returns the body of the next number of a sequence."""
    return struct.pack(">q", number)


def number_of(body: bytes) -> int:
    """Returns the next number of a sequence."""
    if len(body) != 8:
        raise Damaged("the next number of a sequence has other than eight bytes")
    number: int = struct.unpack(">q", body)[0]
    return number
