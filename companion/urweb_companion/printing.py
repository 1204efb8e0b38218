"""Tables in columns, for a terminal."""
from collections.abc import Iterator

from urweb_companion.clear import clear
from urweb_companion.display import width
from urweb_companion.layout import Table
from urweb_companion.store import Store
from urweb_companion.values import Value, text_of

# A longer text is cut.
MOST = 60
GAP = "  "


def lines_of(store: Store, tables: list[Table], with_sequences: bool, most: int | None) -> Iterator[str]:
    """Returns the lines of tables, cut at the width of a terminal where there is one, and of the sequences."""
    for at, table in enumerate(tables):
        if at > 0:
            yield ""
        yield from (line if most is None else cut(line, most) for line in _table_lines(store, table))
    if with_sequences and store.schema.sequences:
        yield from [""] if tables else []
        yield from (f"{name}: next is {store.number(name)}" for name in store.schema.sequences)


def _table_lines(store: Store, table: Table) -> Iterator[str]:
    count, _ = store.size(table)
    yield f"{table.name}: {rows(count)}"
    if count == 0:
        return
    widths = [width(it.name) for it in table.columns]
    for _, row in store.rows(table):
        widths = [max(most, width(_cell(value))) for most, value in zip(widths, row, strict=True)]
    yield _line([it.name for it in table.columns], [it.inner for it in table.columns], widths)
    yield GAP.join("-" * most for most in widths)
    for _, row in store.rows(table):
        yield _line([_cell(value) for value in row], [it.inner for it in table.columns], widths)


def _line(cells: list[str], kinds: list[str], widths: list[int]) -> str:
    """Returns the cells of a row, ints at the right of their columns."""
    padded = [_padded(*it) for it in zip(cells, kinds, widths, strict=True)]
    return GAP.join(padded).rstrip()


def _padded(cell: str, kind: str, columns: int) -> str:
    blanks = " " * (columns - width(cell))
    return blanks + cell if kind == "int" else cell + blanks


def _cell(value: Value) -> str:
    return clear(text_of(value), MOST)


def rows(count: int) -> str:
    return f"{count} row" if count == 1 else f"{count} rows"


def cut(line: str, most: int) -> str:
    """Returns as much of a line as stands in the columns of a terminal."""
    if width(line) <= most:
        return line
    while line and width(line) > most - 2:
        line = line[:-1]
    return line + ".."
