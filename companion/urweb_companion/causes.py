"""One line of cause for the statuses that the program ends with in a few words: wrong words, a port, a file of tables, a file that cannot be read."""
import os
import socket
import sqlite3
from collections.abc import Sequence
from pathlib import Path

from urweb_companion.commands import OF_COMPANION, OF_PROGRAM, Command, Line, near, taken_apart
from urweb_companion.display import escaped
from urweb_companion.program import Status
from urweb_companion.project import sources

RANGES = {"port": (1, 65_535), "cache": (0, 16_384), "steps": (1, 10_000_000), "connections": (1, 1_000_000)}
SQLITE = b"SQLite format 3\x00"


def of_status(status: int, words: Sequence[str]) -> str:
    """Returns the cause as one line, empty where nothing is known of it."""
    if status == Status.USAGE:
        return escaped(_words(words))
    line = taken_apart(words[1:])
    found = {Status.SCHEMA: _schema, Status.SHELF: _shelf, Status.WIRE: _wire, Status.KEEPER: _keeper}.get(Status(status)) if status in set(Status) else None
    return escaped(found(words[0], line)) if found and words else ""


def _words(words: Sequence[str]) -> str:
    if not words or words[0] in {"-h", "--help", "-?"}:
        return "`urweb help` lists the words"
    command = OF_PROGRAM.get(words[0])
    if command is None:
        return f"no such command: {words[0]}{near(words[0], [*OF_PROGRAM, *OF_COMPANION])}"
    line = taken_apart(words[1:])
    return _options(command, line) or _positions(command, line) or f"it is written {command.form}"


def _options(command: Command, line: Line) -> str:
    """Returns what is wrong with the options, the first thing in their order."""
    seen: set[str] = set()
    for name, value in line.options:
        if name not in command.options:
            return f"{command.name} has no option --{name}{near(name, list(command.options)).replace(' is it ', ' is it --')}" if command.options else f"{command.name} has no options"
        if name in seen:
            return f"--{name} stands twice"
        seen.add(name)
        if value is None:
            return f"behind --{name} a value is missing"
        if name in RANGES and not _is_within(value, *RANGES[name]):
            return f"--{name} is a number from {RANGES[name][0]} to {RANGES[name][1]}, and not {value}"
    return ""


def _is_within(value: str, least: int, greatest: int) -> bool:
    return value.isascii() and value.isdigit() and len(value) < 20 and least <= int(value) <= greatest


def _positions(command: Command, line: Line) -> str:
    """Returns what is wrong with the words that are no options."""
    dashes = [it for it in line.words if it.startswith("-") and len(it) > 1]
    if dashes:
        return f"{command.name} has no option {dashes[0]}; options are written --name value"
    if len(line.words) < command.words:
        return f"{command.name} wants {'a project' if command.words == 1 else 'two numbers'}: {command.form}"
    if len(line.words) > command.words:
        return f"{command.name} takes {'one project' if command.words == 1 else 'two numbers'}, and {line.words[command.words]} is one word more"
    if command.name == "serve" and line.option("port") is None:
        return "serve wants a port: --port 8080"
    if command.name == "load":
        return "SEED is a number from 1 to 2147483646, and N one from 0 to 1000000"
    return ""


def _schema(_: str, line: Line) -> str:
    return f"the file has other tables than the project: `urweb migrate {line.words[0]} {line.option('db')} NEW.db` makes one that has its" if line.words else ""


def _shelf(_: str, line: Line) -> str:
    """Returns which file of the project cannot be read, and why."""
    for path in sources(line.words[0]) if line.words else []:
        try:
            path.read_bytes()
        except OSError as it:
            return f"{path} cannot be read: {it.strerror}"
    folders = [it for it in _around(line.words[0]) if it.is_dir()] if line.words else []
    return f"{folders[0]} is a folder, and no file" if folders else "a file of the project cannot be read"


def _around(project: str) -> list[Path]:
    """Returns what has the name of a source beside the project file."""
    path = Path(project if project.endswith(".urp") else f"{project}.urp")
    beside = sorted(path.parent.glob("*.ur*")) if path.parent.is_dir() else []
    return [path, *beside]


def _wire(command: str, line: Line) -> str:
    if command != "serve":
        return "standard input or output failed"
    port = int(line.option("port") or 0)
    with socket.socket(socket.AF_INET, socket.SOCK_STREAM) as it:
        it.setsockopt(socket.SOL_SOCKET, socket.SO_REUSEADDR, 1)
        try:
            it.bind(("127.0.0.1", port))
        except PermissionError:
            return f"port {port} cannot be listened on: ports below 1024 are for the system's administrator"
        except OSError as fault:
            taken = isinstance(fault, OSError) and fault.errno == 98
            return f"port {port} is taken by another program: end that one, or take another port" if taken else f"port {port}: {fault.strerror}"
    return f"port {port} could not be listened on, or no connection could be taken"


def _keeper(_: str, line: Line) -> str:
    path = Path(line.option("db") or "")
    if not path.parent.is_dir():
        return f"the folder {path.parent} is not there"
    if path.is_dir():
        return f"{path} is a folder, and no file"
    if not path.exists():
        return f"{path} cannot be made: the folder may not be written, or the disk is full"
    if not os.access(path, os.R_OK | os.W_OK):
        return f"{path} may not be read or written"
    try:
        with path.open("rb") as it:
            front = it.read(len(SQLITE))
    except OSError as fault:
        return f"{path} cannot be read: {fault.strerror}"
    if front and front != SQLITE:
        return f"{path} is no database of SQLite"
    return _of_database(path)


def _of_database(path: Path) -> str:
    """Returns why a database could not be attached: it is locked, cut, or of other rows."""
    try:
        with sqlite3.connect(f"{path.resolve().as_uri()}?mode=ro", uri=True, timeout=0) as it:
            names = {name for name, in it.execute("SELECT name FROM sqlite_schema")}
            it.execute("SELECT count(*) FROM ur_row").fetchone() if "ur_row" in names else None
    except sqlite3.OperationalError as fault:
        return f"{path} is locked by another program: one program serves a file" if "locked" in str(fault) else f"{path}: {fault}"
    except sqlite3.DatabaseError as fault:
        return f"{path}: {fault}"
    if names and "ur_row" not in names:
        return f"{path} is a database of another application"
    return f"{path} has rows that do not fit its tables, or it may not be written"
