"""What the tests of words share: a word run as `./urweb` runs it, copies of projects, and files of tables with rows."""
import contextlib
import hashlib
import io
import shutil
import tempfile
import unittest
from collections.abc import Callable, Sequence
from dataclasses import dataclass
from pathlib import Path
from urllib.parse import urlencode

import context
from urweb_companion import program

GUESTBOOK = context.EXAMPLES / "guestbook"

# The step that the guide shows for its refusal.
REFUSED = GUESTBOOK / "13-refused"

# After so long something hangs, however busy the machine is.
SECONDS = 600


@dataclass(frozen=True)
class Ran:
    """What a word gave."""

    status: int
    out: str
    err: str


def ran(main: Callable[[Sequence[str]], int], *words: object) -> Ran:
    """Runs a word with words behind it."""
    out, err = io.StringIO(), io.StringIO()
    with contextlib.redirect_stdout(out), contextlib.redirect_stderr(err):
        try:
            status = main([str(word) for word in words])
        except SystemExit as end:
            status = int(end.code or 0)
    return Ran(status, out.getvalue(), err.getvalue())


def request(method: str, path: str, **fields: str) -> bytes:
    body = urlencode(fields).encode() if method == "POST" else b""
    lines = [f"{method} {path} HTTP/1.1", "Host: localhost"]
    if method == "POST":
        lines += ["Content-Type: application/x-www-form-urlencoded", f"Content-Length: {len(body)}"]
    return "\r\n".join([*lines, "", ""]).encode() + body


def replayed(project: Path, store: Path, *requests: bytes) -> str:
    """Returns what the program answers over a file of tables."""
    answer = program.run(["replay", str(project), f"--db={store}"], b"".join(requests))
    if answer.status != program.Status.OK:
        raise AssertionError(f"status {answer.status}: {answer.text}{answer.err.decode()}")
    return answer.text


class Trial(unittest.TestCase):
    """A test with a folder of its own, in which the notes stand."""

    def setUp(self) -> None:
        folder = tempfile.TemporaryDirectory(prefix="urweb-test-")
        self.addCleanup(folder.cleanup)
        self.folder = Path(folder.name)
        for name in ("notes.urp", "main.ur", "main.urs"):
            shutil.copy(context.EXAMPLES / name, self.folder)
        self.notes = self.folder / "notes.urp"
        self.source = self.folder / "main.ur"
        self.store = self.folder / "notes.db"

    def fill(self, *notes: str) -> None:
        """Makes the file of tables, with notes of ann."""
        replayed(self.notes, self.store, *(request("POST", "/Main/add/ann", Body=it) for it in notes))

    def change(self, old: str, new: str) -> None:
        """Changes the source of the notes, where the text stands once."""
        text = self.source.read_text(encoding="utf-8")
        self.assertEqual(text.count(old), 1, old)
        self.source.write_text(text.replace(old, new), encoding="utf-8")

    def add_columns(self) -> None:
        """Gives the notes two columns more."""
        self.change("Body : string} PRIMARY", "Body : string, Tag : string, Done : bool} PRIMARY")
        self.change("(Id, Owner, Body) VALUES ({[n]}, {[who]}, {[r.Body]})", "(Id, Owner, Body, Tag, Done) VALUES ({[n]}, {[who]}, {[r.Body]}, '', FALSE)")

    def write(self, name: str, text: str | bytes) -> Path:
        path = self.folder / name
        path.write_bytes(text.encode() if isinstance(text, str) else text)
        return path

    def sums(self) -> dict[str, str]:
        """Returns a sum of each file of the folder."""
        return {it.name: hashlib.sha256(it.read_bytes()).hexdigest() for it in sorted(self.folder.iterdir()) if it.is_file()}

    def refused(self, found: Ran, said: str, status: int = 1) -> None:
        """The word ends with the status and says why."""
        self.assertEqual((found.status, said in found.err), (status, True), found)


def steps_of_the_guest_book() -> list[Path]:
    """Returns the projects of the guide's steps that are accepted."""
    return sorted(it for it in GUESTBOOK.glob("*/guestbook.urp") if it.parent != REFUSED)
