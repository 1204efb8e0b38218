"""A file of tables as docs/SERVING.md describes it: read from a copy, so that the file stays as it is, and written as stock SQLite does."""
import fcntl
import hashlib
import os
import shutil
import sqlite3
import tempfile
from collections.abc import Iterable, Iterator
from contextlib import closing, contextmanager
from pathlib import Path
from typing import BinaryIO

from urweb_companion.layout import Damaged, Refused, Schema, Table, schema_of
from urweb_companion.rows import Layout, number_body, number_of, split
from urweb_companion.values import Row

Numbered = tuple[int, Row]

# Where the schema's text and the sequences' numbers stand; the rows of table i stand at FIRST_TABLE + i.
SCHEMA, SEQUENCES, FIRST_TABLE = 0, 1, 2
MOST_ROWS = 1_000_000
GREATEST_NUMBER = 4_611_686_018_427_387_904

HEADER = b"SQLite format 3\0"
LOG, JOURNAL = "-wal", "-journal"

# The bytes that SQLite locks: whoever reads the file shares the last ones, and who serves it has them alone.
SHARED_FIRST, SHARED_SIZE = 0x40000002, 510


class Store:
    """What stands in a file of tables."""

    def __init__(self, path: Path, base: sqlite3.Connection) -> None:
        self.path = path
        self._base = base
        self.text = _text_in(path, base)
        self.layout: Layout
        self.layout, text = split(self.text)
        self.schema: Schema = schema_of(text)

    def tab(self, table: Table) -> int:
        return FIRST_TABLE + self.schema.tables.index(table)

    def rows(self, table: Table) -> Iterator[Numbered]:
        """Returns the rows of a table in the order of their numbers."""
        for number, body in self._base.execute("SELECT Num, Body FROM ur_row WHERE Tab = ? ORDER BY Num", (self.tab(table),)):
            try:
                yield number, self.layout.read(table.columns, _blob(body))
            except Damaged as why:
                raise Damaged(f"{table.name}, row {number}: {why}") from None

    def size(self, table: Table) -> tuple[int, int]:
        """Returns how many rows a table has, and the number of the next one."""
        count, last = self._base.execute("SELECT count(*), max(Num) FROM ur_row WHERE Tab = ?", (self.tab(table),)).fetchone()
        return count, 0 if last is None else last + 1

    def sum(self, table: Table) -> str:
        """Returns what tells the rows of a table from others."""
        found = hashlib.sha256()
        for number, body in self._base.execute("SELECT Num, Body FROM ur_row WHERE Tab = ? ORDER BY Num", (self.tab(table),)):
            found.update(number_body(number) + number_body(len(body)) + _blob(body))
        return found.hexdigest()

    def number(self, sequence: str) -> int:
        """Returns the next number of a sequence."""
        at = self.schema.sequences.index(sequence)
        found = self._base.execute("SELECT Body FROM ur_row WHERE Tab = ? AND Num = ?", (SEQUENCES, at)).fetchone()
        if found is None:
            raise Damaged(f"the sequence {sequence} has no number")
        return number_of(_blob(found[0]))

    def put(self, table: Table, rows: Iterable[Numbered]) -> None:
        """Writes rows; whoever calls begins and ends the transaction."""
        tab = self.tab(table)
        bodies = ((tab, number, self.layout.write(table.columns, row)) for number, row in rows)
        self._base.executemany("INSERT INTO ur_row (Tab, Num, Body) VALUES (?, ?, ?)", bodies)

    def draw(self, sequence: str, number: int) -> None:
        """Writes the next number of a sequence, in the same way."""
        at = self.schema.sequences.index(sequence)
        self._base.execute("UPDATE ur_row SET Body = ? WHERE Tab = ? AND Num = ?", (number_body(number), SEQUENCES, at))


def _blob(body: object) -> bytes:
    if not isinstance(body, bytes):
        raise Damaged("a body is of another type than BLOB")
    return body


def _text_in(path: Path, base: sqlite3.Connection) -> str:
    """Returns the text that stands at the front of a file of tables."""
    names = {name for name, in base.execute("SELECT name FROM sqlite_master WHERE type <> 'index'")}
    if not names:
        raise Refused(f"{path} has no tables yet: serve it once with --db")
    found = None
    if names == {"ur_row"}:
        found = base.execute("SELECT Body FROM ur_row WHERE Tab = ? AND Num = 0", (SCHEMA,)).fetchone()
    if found is None:
        raise Refused(f"{path} is a database, but none that the program has made")
    try:
        return _blob(found[0]).decode()
    except UnicodeDecodeError:
        raise Damaged("the schema's text is not UTF-8") from None


@contextmanager
def opened(path: Path) -> Iterator[Store]:
    """Gives what stands in a file, which nobody serves meanwhile."""
    with tempfile.TemporaryDirectory(prefix="urweb-") as folder:
        copy = Path(folder) / "copy.db"
        copy_to(path, copy)
        with database(path, copy) as base:
            yield Store(path, base)


@contextmanager
def database(path: Path, file: Path) -> Iterator[sqlite3.Connection]:
    """Gives a connection to a file; what SQLite and the layout find wrong with it is said of the path."""
    try:
        with closing(sqlite3.connect(file.absolute().as_uri() + "?mode=rw", uri=True, timeout=0, isolation_level=None)) as base:
            yield base
    except sqlite3.OperationalError as why:
        raise held(path) if "locked" in str(why) else Refused(f"{path}: {why}") from None
    except (sqlite3.Error, Damaged) as why:
        raise Refused(f"{path} is damaged: {why}") from None


def held(path: Path) -> Refused:
    return Refused(f"{path} is held by a server or another program: end it first")


@contextmanager
def writing(path: Path, file: Path) -> Iterator[Store]:
    """Gives what stands in a file to write to it, in one transaction, after which all of it stands in the file and none in its log."""
    with database(path, file) as base:
        base.execute("BEGIN IMMEDIATE")
        try:
            yield Store(path, base)
            base.execute("COMMIT")
        finally:
            if base.in_transaction:
                base.execute("ROLLBACK")
        base.execute("PRAGMA wal_checkpoint(TRUNCATE)")


def copy_to(path: Path, copy: Path) -> None:
    """Copies a file with its log, which stay as they are. Nobody can serve the file meanwhile."""
    try:
        with path.open("rb") as file:
            if file.read(len(HEADER)) not in (HEADER, b""):
                raise Refused(f"{path} is no file of tables")
            _share(path, file.fileno())
            before = _marks(path)
            _copy_all(path, file, copy)
            if _marks(path) != before:
                raise held(path)
    except FileNotFoundError:
        raise Refused(f"there is no file {path}") from None
    except OSError as why:
        raise Refused(f"{path} cannot be read: {why.strerror}") from None


def _share(path: Path, file: int) -> None:
    """Locks the file as a reader of SQLite does, until it is closed."""
    try:
        fcntl.lockf(file, fcntl.LOCK_SH | fcntl.LOCK_NB, SHARED_SIZE, SHARED_FIRST)
    except (BlockingIOError, PermissionError):
        raise held(path) from None


def log_of(path: Path) -> Path:
    return path.with_name(path.name + LOG)


def _marks(path: Path) -> list[tuple[int, int, int] | None]:
    """Returns what tells whether a file and its log were changed."""
    return [_mark(it) for it in (path, log_of(path))]


def _mark(path: Path) -> tuple[int, int, int] | None:
    try:
        it = os.stat(path)
    except FileNotFoundError:
        return None
    return it.st_ino, it.st_size, it.st_mtime_ns


def _copy_all(path: Path, file: BinaryIO, copy: Path) -> None:
    """Copies a file that is open, and its log. The file is not opened once more: to close it would end the lock."""
    file.seek(0)
    with copy.open("wb") as other:
        shutil.copyfileobj(file, other)
    for ending in (LOG, JOURNAL):
        beside = path.with_name(path.name + ending)
        if beside.exists():
            shutil.copyfile(beside, copy.with_name(copy.name + ending))


@contextmanager
def placed(path: Path) -> Iterator[Path]:
    """Gives the path of a file to make, in a folder beside; where the block ends well, the file gets its place, whole and at once."""
    for there in (path, *(path.with_name(path.name + it) for it in (LOG, "-shm", JOURNAL))):
        if os.path.lexists(there):
            raise Refused(f"{there} is there already")
    if not path.absolute().parent.is_dir():
        raise Refused(f"there is no folder {path.parent}")
    try:
        with tempfile.TemporaryDirectory(prefix=".urweb-", dir=path.absolute().parent) as folder:
            draft = Path(folder) / "draft.db"
            yield draft
            _place(draft, path)
    except OSError as why:
        raise Refused(f"{path} cannot be written: {why.strerror}") from None


def _place(draft: Path, path: Path) -> None:
    """Gives the draft its name, which nobody else may have taken meanwhile."""
    with draft.open("rb") as file:
        os.fsync(file.fileno())
    try:
        os.link(draft, path)
    except FileExistsError:
        raise Refused(f"{path} is there already") from None
    except OSError:
        # A file system without second names.
        os.rename(draft, path)
    folder = os.open(path.absolute().parent, os.O_RDONLY)
    try:
        os.fsync(folder)
    finally:
        os.close(folder)


def settle(path: Path, file: Path) -> None:
    """Has all of a file's log stand in the file."""
    with database(path, file) as base:
        base.execute("PRAGMA wal_checkpoint(TRUNCATE)")
    if log_of(file).exists():
        raise held(path)
