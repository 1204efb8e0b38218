"""`seed`: rows of a CSV file put into a table of a file that the program has made."""
import argparse
import sys
import tempfile
from collections.abc import Iterator, Sequence
from dataclasses import dataclass
from itertools import chain
from pathlib import Path

from urweb_companion.attach import attach, project_of
from urweb_companion.cells import read
from urweb_companion.clear import clear
from urweb_companion.keys import Keys
from urweb_companion.layout import Refused, Table, one
from urweb_companion.printing import rows as counted
from urweb_companion.store import GREATEST_NUMBER, Numbered, Store, copy_to, database, writing
from urweb_companion.tables import table_named
from urweb_companion.values import Row

DESCRIPTION = """Puts the rows of a CSV file behind those of a table. The first line has the names of the columns, in any order. All rows are checked, and
taken by the program in a copy, before the file is written: all of them or none."""


@dataclass(frozen=True)
class Seeds:
    """The rows to put into a table, and the next numbers of the sequences that gave some of their values."""

    table: Table
    rows: list[Numbered]
    numbers: dict[str, int]

    def put(self, store: Store) -> None:
        store.put(self.table, self.rows)
        for sequence, number in self.numbers.items():
            store.draw(sequence, number)


def main(words: Sequence[str]) -> int:
    parsed = _parser().parse_args(words)
    try:
        print(_seed(Path(parsed.file), parsed.table, parsed.rows, parsed.words))
    except Refused as why:
        print(f"urweb seed: {why}", file=sys.stderr)
        return 1
    return 0


def _parser() -> argparse.ArgumentParser:
    parser = argparse.ArgumentParser(prog="urweb seed", description=DESCRIPTION)
    parser.add_argument("file", metavar="f.db", help="the file of tables")
    parser.add_argument("table", metavar="T", help="the table, as M.t or t")
    parser.add_argument("rows", metavar="rows.csv", help="the rows; `-` is standard input")
    parser.add_argument("words", metavar="C=SEQUENCE", nargs="*", help="a column that the CSV file has not, and that gets the sequence's next numbers")
    return parser


def _seed(path: Path, name: str, source: str, words: Sequence[str]) -> str:
    """Puts the rows into the file, and says how many they are."""
    with tempfile.TemporaryDirectory(prefix="urweb-") as folder:
        copy = Path(folder) / "copy.db"
        copy_to(path, copy)
        with database(path, copy) as base:
            store = Store(path, base)
            seeds = _seeds(store, table_named(store, name), source, words)
            before = _state(store, seeds)
        with writing(path, copy) as store:
            seeds.put(store)
        with project_of(store.schema) as project:
            attach(project, copy)
    with writing(path, path) as store:
        if _state(store, seeds) != before:
            raise Refused(f"{path} was changed meanwhile, and nothing is written")
        seeds.put(store)
    return f"{path}: {counted(len(seeds.rows))} put into {seeds.table.name}"


def _state(store: Store, seeds: Seeds) -> object:
    """Returns what the numbers and keys of the rows rest on."""
    return store.text, store.sum(seeds.table), [store.number(it) for it in seeds.numbers]


def _seeds(store: Store, table: Table, source: str, words: Sequence[str]) -> Seeds:
    """Returns the rows of the source with the numbers that they get, all of them checked."""
    drawn = _drawn(store, table, words)
    numbers = {it: store.number(it) for it in drawn.values()}
    _, first = store.size(table)
    found = list(enumerate(_rows(table, source, drawn, numbers), first))
    if max([first + len(found), *numbers.values()]) > GREATEST_NUMBER:
        raise Refused("the numbers of rows or of a sequence would be too great")
    for _ in Keys(table).passed(chain(store.rows(table), found)):
        pass
    return Seeds(table, found, numbers)


def _drawn(store: Store, table: Table, words: Sequence[str]) -> dict[str, str]:
    """Returns the sequence of each column that gets the numbers of one."""
    drawn: dict[str, str] = {}
    for word in words:
        name, _, sequence = word.partition("=")
        column = table.column(name)
        if column is None or column.kind != "int" or name in drawn or not sequence:
            raise Refused(f"{clear(word)}: a word is a column of kind int, `=` and a sequence, and each column stands once")
        drawn[name] = one(store.schema.sequences, sequence, f"{store.path} has no sequence")
    return drawn


def _rows(table: Table, source: str, drawn: dict[str, str], numbers: dict[str, int]) -> Iterator[Row]:
    """Returns the rows of the source; the sequences move on."""
    for values in read(source, table, drawn):
        for name, sequence in drawn.items():
            values[name] = numbers[sequence]
            numbers[sequence] += 1
        yield tuple(values[it.name] for it in table.columns)
