"""`tables`: what stands in a file of tables, in columns, as CSV or as tables of a database for sqlite3's shell."""
import argparse
import os
import sys
from collections.abc import Sequence
from pathlib import Path

from urweb_companion.export import write_csv, write_database
from urweb_companion.layout import Refused, Table, named
from urweb_companion.printing import lines_of
from urweb_companion.store import Store, opened


def main(words: Sequence[str]) -> int:
    parsed = _parser().parse_args(words)
    try:
        with opened(Path(parsed.file)) as store:
            _show(parsed, store)
            sys.stdout.flush()
    except Refused as why:
        print(f"urweb tables: {why}", file=sys.stderr)
        return 1
    return 0


def _parser() -> argparse.ArgumentParser:
    parser = argparse.ArgumentParser(
        prog="urweb tables", description="Prints the tables of a file that `serve --db` has made. The file stays as it is; nobody may serve it meanwhile."
    )
    parser.add_argument("file", metavar="f.db", help="the file of tables")
    parser.add_argument("table", metavar="T", nargs="?", help="the one table that is wanted, as M.t or t")
    form = parser.add_mutually_exclusive_group()
    form.add_argument("--csv", action="store_true", help="print one table as CSV, the names of its columns first")
    form.add_argument("--sqlite", metavar="out.db", help="write a database with a table of its own for each, and one of the sequences")
    return parser


def _show(parsed: argparse.Namespace, store: Store) -> None:
    tables = [table_named(store, parsed.table)] if parsed.table is not None else list(store.schema.tables)
    if parsed.csv:
        write_csv(store, _only(store, tables), sys.stdout)
    elif parsed.sqlite is not None:
        count = write_database(store, tables, Path(parsed.sqlite))
        print(f"{parsed.sqlite}: {count}")
    else:
        width = os.get_terminal_size().columns if sys.stdout.isatty() else None
        for line in lines_of(store, tables, parsed.table is None, width):
            print(line)


def table_named(store: Store, name: str) -> Table:
    """Returns the table of a name, with its module or without."""
    names = [it.name for it in store.schema.tables]
    found = named(names, name)
    if not found:
        raise Refused(f"{store.path} has no table {name}; it has {', '.join(names) or 'none'}")
    if len(found) > 1:
        raise Refused(f"{name} may be {' or '.join(found)}")
    return store.schema.tables[names.index(found[0])]


def _only(store: Store, tables: list[Table]) -> Table:
    if len(tables) != 1:
        raise Refused(f"--csv prints one table: name one of {', '.join(it.name for it in tables) or 'none'}")
    return tables[0]
