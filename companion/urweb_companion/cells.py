"""The lines of a CSV file as values of a table's columns."""
import csv
import sys
from collections.abc import Collection, Iterator
from contextlib import AbstractContextManager, nullcontext
from pathlib import Path
from typing import TextIO

from urweb_companion.clear import clear
from urweb_companion.layout import Refused, Table
from urweb_companion.values import MOST_BYTES, Value, value_of

# What stands for standard input.
INPUT = "-"


def read(source: str, table: Table, left_out: Collection[str]) -> Iterator[dict[str, Value]]:
    """Returns the values of each line by their columns: all columns of the table but those that are left out."""
    # A cell may be as long as a text of a table.
    csv.field_size_limit(MOST_BYTES)
    with _reading(source) as lines:
        reader = csv.reader(lines, strict=True)
        try:
            names = _names(table, next(reader, []), left_out)
            for cells in reader:
                if cells:
                    yield _values(table, names, cells)
        except UnicodeDecodeError:
            raise Refused(f"{source} is not UTF-8") from None
        except (csv.Error, ValueError) as why:
            raise Refused(f"{source}:{max(1, reader.line_num)}: {why}") from None


def _reading(source: str) -> AbstractContextManager[TextIO]:
    if source == INPUT:
        return nullcontext(sys.stdin)
    try:
        return Path(source).open(encoding="utf-8-sig", newline="")
    except OSError as why:
        raise Refused(f"{source} cannot be read: {why.strerror}") from None


def _names(table: Table, names: list[str], left_out: Collection[str]) -> list[str]:
    """Returns the names in the first line, which must be those of the columns."""
    wanted = [it.name for it in table.columns if it.name not in left_out]
    if sorted(names) != sorted(wanted):
        found = ", ".join(map(clear, names)) or "nothing"
        raise ValueError(f"the first line has {found}; the columns are {', '.join(wanted) or 'none'}")
    return names


def _values(table: Table, names: list[str], cells: list[str]) -> dict[str, Value]:
    if len(cells) != len(names):
        raise ValueError(f"there are {len(cells)} cells for {len(names)} columns")
    texts = dict(zip(names, cells, strict=True))
    return {it.name: _value(it.name, texts[it.name], table) for it in table.columns if it.name in texts}


def _value(name: str, text: str, table: Table) -> Value:
    column = table.column(name)
    assert column is not None
    try:
        return value_of(column, text)
    except ValueError as why:
        raise ValueError(f"{name}: {why}") from None
