"""The program as the judge of files of tables: it makes them, says what tables a project has, and whether a file is good for a project."""
import tempfile
from collections.abc import Iterator
from contextlib import contextmanager
from pathlib import Path

from urweb_companion.explain import of_run
from urweb_companion.layout import Refused, Schema
from urweb_companion.program import Answer, Status, run
from urweb_companion.store import opened

WHY: dict[int, str] = {
    Status.SHELF: "a file of the project cannot be read",
    Status.KEEPER: "the program does not take the file",
    Status.MEMORY: "memory is wanting",
}


def check(project: str) -> None:
    """Compiles a project; Refused has the explanation where it is refused."""
    answer = run(["check", "--", project])
    if answer.status != Status.OK:
        explanation = of_run(answer)
        raise Refused(explanation.text().rstrip("\n") if explanation else f"{project}: {why(answer)}")


def attach(project: str, path: Path) -> None:
    """Has the program attach a file for a project, which makes the file where it is not there."""
    answer = run(["replay", f"--db={path.absolute()}", "--", project])
    if answer.status != Status.OK:
        raise Refused(f"the program ends with status {answer.status}: {why(answer)}")


def why(answer: Answer) -> str:
    """Returns what a status says, or what the program itself said."""
    said = (answer.out + answer.err).decode("utf-8", "replace").rstrip("\n")
    return WHY.get(answer.status, said or "it says nothing")


def schema_of_project(project: str) -> Schema:
    """Returns the tables and sequences of a project, as the program writes them into a new file."""
    check(project)
    with tempfile.TemporaryDirectory(prefix="urweb-") as folder:
        path = Path(folder) / "new.db"
        attach(project, path)
        with opened(path) as store:
            return store.schema


@contextmanager
def project_of(schema: Schema) -> Iterator[str]:
    """Gives a project that has these tables and sequences and nothing else, so that the program judges a file whose own project is not named."""
    with tempfile.TemporaryDirectory(prefix="urweb-") as folder:
        modules = _modules(schema)
        last = next(name for name in (f"Page{at}" for at in range(len(modules) + 1)) if name not in modules)
        for name in modules:
            (Path(folder) / f"{_file(name)}.ur").write_text(_source(schema, name), encoding="utf-8")
        page = "fun main () : transaction page = return <xml><body></body></xml>\n"
        (Path(folder) / f"{_file(last)}.ur").write_text(page, encoding="utf-8")
        project = Path(folder) / "tables.urp"
        project.write_text("".join(f"{_file(name)}\n" for name in [*modules, last]), encoding="utf-8")
        yield str(project)


def _file(module: str) -> str:
    return module[:1].lower() + module[1:]


def _module(name: str) -> str:
    return name.partition(".")[0]


def _modules(schema: Schema) -> list[str]:
    """Returns the modules in an order in which both the tables' and the sequences' stand."""
    tables = list(dict.fromkeys(_module(it.name) for it in schema.tables))
    rest = list(dict.fromkeys(map(_module, schema.sequences)))
    order: list[str] = []
    for name in rest:
        if name in tables:
            at = tables.index(name) + 1
            order += tables[:at]
            tables = tables[at:]
        elif name not in order:
            order.append(name)
    return order + tables


def _source(schema: Schema, module: str) -> str:
    """Returns the declarations of a module."""
    lines = [f"sequence {name.partition('.')[2]}" for name in schema.sequences if _module(name) == module]
    for table in schema.tables:
        if _module(table.name) == module:
            columns = ", ".join(map(str, table.columns))
            keys = [f"{_key(table.has_primary, at)} ({', '.join(key)})" for at, key in enumerate(table.keys)]
            lines.append(" ".join([f"table {table.short} : {{{columns}}}", ", ".join(keys)]).rstrip())
    return "".join(f"{it}\n" for it in lines)


def _key(has_primary: bool, at: int) -> str:
    return "PRIMARY KEY" if at == 0 and has_primary else f"CONSTRAINT Key{at} UNIQUE"
