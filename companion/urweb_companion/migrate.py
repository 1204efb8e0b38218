"""`migrate`: a file of tables for a project whose tables have changed, from the file of before, which stays as it is."""
import argparse
import sys
from collections.abc import Sequence
from pathlib import Path

from urweb_companion.attach import attach, schema_of_project
from urweb_companion.clear import clear
from urweb_companion.keys import Keys
from urweb_companion.layout import Column, Refused
from urweb_companion.migration import Given, Number, Plan, TablePlan, Taken, plan_of
from urweb_companion.printing import rows
from urweb_companion.store import Store, opened, placed, settle, writing
from urweb_companion.values import Value, text_of

DESCRIPTION = """Makes a file of tables for a project whose tables have changed. It says what is new, dropped and renamed, and asks for each value that is
missing, on a terminal; nothing is written unless all is known. The old file stays as it is. Columns that may be empty need none of this: the program adds
them itself when it takes the old file, and migrate says so."""


def main(words: Sequence[str]) -> int:
    parsed = _parser().parse_args(words)
    try:
        _migrate(parsed.project, Path(parsed.old), Path(parsed.new), parsed.words)
    except Refused as why:
        print(f"urweb migrate: {why}", file=sys.stderr)
        return 1
    return 0


def _parser() -> argparse.ArgumentParser:
    parser = argparse.ArgumentParser(prog="urweb migrate", description=DESCRIPTION)
    parser.add_argument("project", metavar="P", help="the project as it is now")
    parser.add_argument("old", metavar="old.db", help="the file of before")
    parser.add_argument("new", metavar="new.db", help="the file to make, which must not be there")
    parser.add_argument(
        "words", metavar="WORD", nargs="*",
        help="T.C=value, a value for a new column (a text may stand in quotes of its own); T.New=T.Old, a column that was called otherwise or was of another"
        " kind; t=old, a table or a sequence that was called otherwise; s=n, the next number of a sequence",
    )
    return parser


def _migrate(project: str, old: Path, new: Path, words: Sequence[str]) -> None:
    with placed(new) as draft, opened(old) as store:
        schema = schema_of_project(project)
        plan = plan_of(store, schema, words)
        _complete(plan)
        for line in report(plan):
            print(line)
        if schema.extends(store.schema) and not words:
            print(f"the program takes {old} for the project as well, and does the same in it by itself")
        attach(project, draft)
        _write(plan, store, new, draft)
        attach(project, draft)
        settle(new, draft)
    print(f"{new} is made, and the program takes it")


def _write(plan: Plan, store: Store, new: Path, draft: Path) -> None:
    with writing(new, draft) as target:
        for table in plan.tables:
            target.put(table.table, Keys(table.table).passed(table.rows(store)))
        for sequence in plan.sequences:
            target.draw(sequence.name, sequence.next)


def _complete(plan: Plan) -> None:
    """Asks for what is missing; Refused says all of it where there is no terminal to ask on."""
    missing = [(table, column) for table in plan.tables for column in table.missing()]
    if missing and not sys.stdin.isatty():
        for line in report(plan):
            print(line)
        raise Refused("nothing is written, since values are missing:\n" + "\n".join(f"  {wanted(*it)}" for it in missing))
    for table, column in missing:
        _ask(table, column)


def _ask(table: TablePlan, column: Column) -> None:
    """Asks until there is an answer that is a value or a column."""
    print(wanted(table, column))
    while column.name not in table.origins:
        try:
            table.set(column, input(f"{table.table.short}.{column.name}="))
        except Refused as why:
            print(why)
        except (EOFError, KeyboardInterrupt):
            raise Refused("nothing is written, since a value is missing") from None


def wanted(table: TablePlan, column: Column) -> str:
    """Says what is missing and how it is given."""
    name = f"{table.table.short}.{column.name}"
    ways = [f"{name}=VALUE", *(f"{name}={table.old.short}.{it.name}" for it in table.dropped() if table.old and may_take(it, column))]
    return f"{table.table.name}.{column} has no value for {rows(table.count)}: give {' or '.join(ways)}"


def may_take(old: Column, new: Column) -> bool:
    """Whether a column's values may be those of an old one, or texts of them."""
    return old.inner == new.inner or "string" in (old.inner, new.inner)


def report(plan: Plan) -> list[str]:
    """Says what becomes of each table and sequence."""
    lines = [line for it in plan.tables for line in _table_report(it)]
    for table, count in plan.dropped_tables:
        lines.append(f"table {table.name} is dropped with {rows(count)}{_hint(plan, count)}")
    lines += [_sequence_report(it) for it in plan.sequences]
    return lines + [f"sequence {name} is dropped" for name in plan.dropped_sequences]


def _hint(plan: Plan, count: int) -> str:
    """Says how a table that is new takes the rows of one that is dropped."""
    new = [it.table.name for it in plan.tables if it.old is None]
    return f"; where {' or '.join(new)} is its new name, write NEW=OLD" if new and count else ""


def _table_report(it: TablePlan) -> list[str]:
    if it.old is None:
        return [f"table {it.table.name} is new"]
    was = f", which was {it.old.name}" if it.old.name != it.table.name else ""
    changes = [line for column in it.table.columns if (line := _column_report(it, column))]
    changes += [f"  {column} is dropped" for column in it.dropped()]
    if sorted(it.table.keys) != sorted(it.old.keys):
        changes.append(f"  its keys are {_keys(it.table.keys)}, and were {_keys(it.old.keys)}")
    return [f"table {it.table.name}{was}: {rows(it.count)}{'' if changes else ', as before'}", *changes]


def _keys(keys: tuple[tuple[str, ...], ...]) -> str:
    return ", ".join(f"({', '.join(key)})" for key in keys) or "none"


def _shown(value: Value) -> str:
    """Returns a value as a report has it."""
    if value is None:
        return "empty"
    return repr(clear(value)) if isinstance(value, str) else text_of(value)


def _column_report(it: TablePlan, column: Column) -> str | None:
    """Says what becomes of a column, and nothing where it stays."""
    match it.origins.get(column.name):
        case Given(value):
            return f"  {column} is new: {_shown(value)}"
        case Taken(old) if old != column:
            return f"  {column} was {old}"
        case None:
            return f"  {column} is new"
    return None


def _sequence_report(it: Number) -> str:
    match it.old:
        case None:
            return f"sequence {it.name} is new, next is {it.next}"
        case it.name:
            return f"sequence {it.name}: next is {it.next}"
    return f"sequence {it.name}, which was {it.old}: next is {it.next}"
