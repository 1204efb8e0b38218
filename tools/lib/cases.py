"""Files of cases of whole runs, as docs/CASES.md has them: each row with its words, files, connections, calls that fail, and what must come."""
import re
from collections.abc import Sequence
from dataclasses import dataclass, field
from pathlib import Path

from lib.program import TOP

DATA = TOP / "crates" / "run_cases" / "data"
STDOUT = TOP / "crates" / "run_cases" / "stdout"
ESCAPES = {b"n": b"\n", b"r": b"\r", b"t": b"\t", b"x": b"\xff"}
DEVICES = (b"shelf", b"wire", b"sink", b"keeper")


@dataclass
class Wanted:
    """What must come of a row: the status, a word for each session, what is given on the connections, the tables, and what is printed."""

    status: int
    sessions: list[str]
    given: list[bytes]
    tables: list[bytes]
    printed: list[bytes]


@dataclass
class Row:
    """What a row says: the line it stands at, the words, the files, the bytes of each connection, the size of the pieces in which they are read, the
    calls that fail by device, the run before it, and what must come."""

    line: int
    words: list[str]
    wanted: Wanted
    files: dict[str, bytes] = field(default_factory=dict)
    inputs: list[bytes] = field(default_factory=list)
    fields: bytes = b""
    piece: int = 4096
    fails: dict[str, list[int]] = field(default_factory=dict)
    first: list[str] | None = None
    first_inputs: list[bytes] = field(default_factory=list)

    def add(self, more: bytes) -> None:
        """Adds bytes to the last connection."""
        self.inputs = self.inputs or [b""]
        self.inputs[-1] += more

    def take(self, word: bytes, rest: bytes) -> None:
        """Takes a line of the row."""
        if word in (b"file", b">"):
            self.take_file(word, rest)
        elif word in (b"ask", b"field", b"raw", b"again"):
            self.take_bytes(word, rest)
        elif word == b"before":
            self.first, self.first_inputs, self.inputs = words_of(plain(rest)), self.inputs, []
        elif word == b"piece":
            self.piece = int(rest)
        elif word in DEVICES:
            self.fails[word.decode()] = [int(number) for number in rest.split()]

    def take_file(self, word: bytes, rest: bytes) -> None:
        """Takes a line that begins a file or goes on with it."""
        if word == b">":
            self.files[list(self.files)[-1]] += rest + b"\n"
        else:
            name, _, text = rest.partition(b" ")
            self.files[name.decode()] = plain(text)

    def take_bytes(self, word: bytes, rest: bytes) -> None:
        """Takes a line of what is sent."""
        if word == b"ask":
            self.add(request(rest, self.fields))
            self.fields = b""
        elif word == b"field":
            self.fields += plain(rest) + b"\r\n"
        elif word == b"raw":
            self.add(plain(rest))
        else:
            self.inputs.append(b"")


@dataclass
class Case:
    """A case: the number of its first line, its text, what must come, and whether a line more stands directly behind what there is."""

    line: int
    text: bytes
    wanted: bytes = b""
    is_open: bool = False

    def want(self, line: bytes) -> None:
        """Takes a line of what must come."""
        self.wanted += (b"\n" if self.wanted else b"") + line
        self.is_open = False

    def go_on(self, line: bytes) -> None:
        """Takes a line more, or repeated pieces, of the text or of what must come."""
        is_text = not self.wanted
        if line.startswith(b"*"):
            kind, count, piece = line.split(b" ", 2)
            more = repeated(int(count), piece, kind == b"**")
        else:
            more = line[1:].removeprefix(b" ")
            between = b"\n" if is_text else b" "
            more = (b"" if self.is_open else between) + (more if is_text else more.lstrip())
        if is_text:
            self.text += more
        else:
            self.wanted += more
        self.is_open = line.startswith(b"*")


def words_of(text: bytes) -> list[str]:
    """Returns the words of a command line, `-` for none."""
    return [word for word in text.decode().split() if word != "-"]


def plain(text: bytes) -> bytes:
    """Returns the bytes that a line of a case stands for."""
    return re.sub(rb"\\(.?)", lambda found: ESCAPES.get(found[1], found[1]), text, flags=re.DOTALL)


def shown(given: bytes) -> bytes:
    """Returns bytes as rows write them, `^` for each return and ` /` for each end of a line."""
    text = given.replace(b"\r", b"^").replace(b"\n", b" / ")
    return text[:-1] if given.endswith(b"\n") else text


def quoted(text: bytes) -> bytes:
    """Returns a text in quotes, with the escapes of the language."""
    for sign, escaped in ((b"\\", b"\\\\"), (b'"', b'\\"'), (b"\n", b"\\n"), (b"\t", b"\\t")):
        text = text.replace(sign, escaped)
    return b'"' + text + b'"'


def repeated(count: int, piece: bytes, is_numbered: bool) -> bytes:
    """Returns a piece so many times, each with its number where that is asked."""
    numbers = range(1, count + 1) if count > 0 else range(-count, 0, -1)
    return b"".join(piece.replace(b"#", b"%05d" % number, 1) if is_numbered else piece for number in numbers)


def request(line: bytes, fields: bytes) -> bytes:
    """Returns the bytes of a request by `METHOD PATH BODY`, with these fields."""
    method, path, body = (line.split(b" ", 2) + [b"", b""])[:3]
    body = plain(body)
    length = b"Content-Length: %d\r\n" % len(body) if method == b"POST" else b""
    return b"%s %s HTTP/1.1\r\nHost: localhost\r\n%s%s\r\n%s" % (method, path, fields, length, body)


def cases_of(text: bytes) -> list[Case]:
    """Returns the cases of a file."""
    found: list[Case] = []
    for number, line in enumerate(text.split(b"\n"), 1):
        line = line.removesuffix(b"\r")
        if line.startswith(b"run "):
            found.append(Case(number, line[4:]))
        elif re.match(rb"[=+!]", line):
            found[-1].want(line)
        elif re.match(rb"[|*]", line):
            found[-1].go_on(line)
    return found


def wanted_of(lines: Sequence[bytes]) -> Wanted:
    """Returns what must come, by its lines."""
    head = lines[0].decode().split()
    given = [line[2:] for line in lines if line.startswith(b"+ HTTP/")]
    tables = [line for line in lines if line.startswith(b"+ ") and not line.startswith(b"+ HTTP/")]
    return Wanted(int(head[1]), head[2:head.index("reads")], given, tables, [line[2:] for line in lines if line.startswith(b"! ")])


def row_of(case: Case) -> Row:
    """Returns the row of a case."""
    words, _, rest = case.text.partition(b"\n")
    row = Row(case.line, words_of(words), wanted_of(case.wanted.split(b"\n")))
    for line in rest.split(b"\n"):
        word, _, more = line.partition(b" ")
        row.take(word, more)
    row.inputs = row.inputs[:len(row.wanted.sessions)] or [b""]
    return row


def names() -> list[str]:
    """Returns the names of the files of cases."""
    return sorted(path.name for path in DATA.iterdir())


def rows_in(name: str) -> list[Row]:
    """Returns the rows of a file of cases."""
    return [row_of(case) for case in cases_of((DATA / name).read_bytes())]


def counts() -> dict[str, int]:
    """Returns how many rows each file has by what the program of cases must print."""
    text = STDOUT.read_text(encoding="utf-8")
    return {name: int(count) for name, count in re.findall(r"(?m)^(\S+): \d+ of (\d+) come as they must$", text)}
