"""`./urweb` and the program: on fifty runs the same bytes on standard output and the same status; and what is said beside them."""
import socket
import subprocess
import tempfile
import unittest
from collections.abc import Sequence
from dataclasses import dataclass
from pathlib import Path

import context
from refusal_cases import cases, written
from runs import SCRIPT, SECONDS, fetched, free_port, ran
from urweb_companion.program import find

HELLO = "examples/hello.urp"
NOTES = "examples/notes.urp"
BOOK = "examples/guestbook/5-update/guestbook"
GET = b"GET /Main/list/ann HTTP/1.1\r\nHost: h\r\n\r\n"
POST = b"POST /Main/add/ann HTTP/1.1\r\nHost: h\r\nContent-Length: 6\r\n\r\nBody=a"
CLOSING = b"GET /Hello/main/3 HTTP/1.1\r\nHost: h\r\nConnection: close\r\n\r\n"


@dataclass(frozen=True)
class Run:
    """A run: its words and its input. `{f}` in a word is a new folder with a file `text` that is no database."""

    words: Sequence[str]
    stdin: bytes = b""


WORDS = [
    Run([]), Run(["chek", NOTES]), Run(["--help"]), Run(["-h"]), Run(["check"]), Run(["check", NOTES, HELLO]), Run(["check", "--db", "x", NOTES]),
    Run(["serve", NOTES]), Run(["serve", NOTES, "--port", "0"]), Run(["serve", NOTES, "--port", "x"]), Run(["replay", NOTES, "--steps", "0"]),
    Run(["replay", NOTES, "--cache", "99999"]), Run(["load", "1"]), Run(["load", "0", "5"]), Run([""]), Run(["check", ""]),
]
MISSING = [Run(["check", "nothere"]), Run(["sites", "nothere.urp"]), Run(["replay", "{f}/a"]), Run(["check", "examples"]), Run(["replay", NOTES, "--db", "{f}/b/c.db"])]
GOOD = [
    Run(["check", NOTES]), Run(["check", HELLO]), Run(["check", "--", BOOK]), Run(["sites", NOTES]), Run(["sites", BOOK]), Run(["sites", HELLO]),
    Run(["load", "1", "3"]), Run(["load", "7", "40"]),
]
REQUESTS = [
    Run(["replay", HELLO], Path(context.EXAMPLES / "hello.request").read_bytes()), Run(["replay", NOTES], GET), Run(["replay", NOTES], POST + GET + POST + GET),
    Run(["replay", NOTES, "--cache", "0"], POST + GET), Run(["replay", "--steps=1", NOTES], POST + GET), Run(["replay", NOTES], b"PUT / HTTP/1.1\r\nHost: h\r\n\r\n"),
    Run(["replay", NOTES], b"\x00\xff\r\n\r\n"), Run(["replay", NOTES], b""), Run(["replay", NOTES, "--db", "{f}/n.db"], POST + GET),
    Run(["replay", NOTES, "--db", "{f}/text"], GET), Run(["replay", NOTES], GET[:20]),
]
REFUSED = 12


class Same(unittest.TestCase):
    def same(self, run: Run, folder: Path = context.TOP) -> None:
        given = [self.of(program, run, folder) for program in (find(), SCRIPT)]
        with self.subTest(run.words):
            self.assertEqual(given[0], given[1])

    def of(self, program: Path, run: Run, folder: Path) -> tuple[int, bytes]:
        with tempfile.TemporaryDirectory() as new:
            Path(new, "text").write_text("no database\n")
            made = ran(program, [it.replace("{f}", new) for it in run.words], run.stdin, folder)
            return made.returncode, made.stdout.replace(new.encode(), b"{f}")

    def test_words(self) -> None:
        for run in [*WORDS, *MISSING, *GOOD]:
            self.same(run)

    def test_requests(self) -> None:
        for run in REQUESTS:
            self.same(run)

    def test_refusals(self) -> None:
        for case in cases()[5::len(cases()) // REFUSED][:REFUSED]:
            with written(case.files) as folder:
                self.same(Run(["check", "m"]), folder)

    def test_serving(self) -> None:
        self.assertEqual(*(self.served(program, ["--connections", "1"]) for program in (find(), SCRIPT)))

    def served(self, program: Path, more: Sequence[str]) -> tuple[int, bytes, bytes]:
        port = free_port()
        child = subprocess.Popen([program, "serve", HELLO, "--port", str(port), *more], stdin=subprocess.DEVNULL, stdout=subprocess.PIPE, cwd=context.TOP)
        self.addCleanup(child.kill)
        page = fetched(port, CLOSING)
        out, _ = child.communicate(timeout=SECONDS)
        return child.returncode, out.replace(str(port).encode(), b"{port}"), page

    def test_a_port_that_is_taken(self) -> None:
        port = free_port()
        with socket.socket() as it:
            it.bind(("127.0.0.1", port))
            it.listen()
            self.same(Run(["serve", HELLO, "--port", str(port)]))
            said = ran(SCRIPT, ["serve", HELLO, "--port", str(port)])
        self.assertEqual(said.returncode, 6)
        self.assertIn(f"urweb: port {port} is taken by another program".encode(), said.stderr)

    def test_another_schema(self) -> None:
        with tempfile.TemporaryDirectory() as new:
            file = f"{new}/a.db"
            self.assertEqual(ran(find(), ["replay", NOTES, "--db", file], GET).returncode, 0)
            self.same(Run(["serve", BOOK, "--port", str(free_port()), "--db", file]))
            self.assertIn(b"urweb migrate", ran(SCRIPT, ["replay", BOOK, "--db", file]).stderr)

    def test_output_that_is_closed(self) -> None:
        given = []
        for program in (find(), SCRIPT):
            made = subprocess.run(["bash", "-c", '"$0" check "$1" >&-', program, NOTES], cwd=context.TOP, capture_output=True, timeout=SECONDS)
            given.append((made.returncode, made.stdout))
        self.assertEqual(*given)

    def test_fifty_runs_are_compared(self) -> None:
        self.assertGreaterEqual(len([*WORDS, *MISSING, *GOOD, *REQUESTS]) + REFUSED + 4, 50)


class Said(unittest.TestCase):
    """What stands on standard error behind what the program says."""

    def test_a_refusal_is_explained_behind_it(self) -> None:
        with written({"m.ur": "val a = 3\n"}) as folder:
            said = ran(SCRIPT, ["check", "m"], folder=folder)
        self.assertEqual(said.stdout, b"E05 m.ur:6-7  | \n")
        self.assertTrue(said.stderr.startswith(b"m.ur:1:7: E05 found `=`, which no rule has there\n    1 | val a = 3\n      |       ^\n  hint: a value has a type: "))

    def test_nothing_is_said_of_what_is_accepted(self) -> None:
        for words in (["check", NOTES], ["sites", NOTES], ["load", "1", "2"]):
            self.assertEqual(ran(SCRIPT, words).stderr, b"")

    def test_words_that_are_no_command(self) -> None:
        for words, line in (
            (["srve", NOTES], b"urweb: no such command: srve, is it serve?\n"),
            (["serve", NOTES], b"urweb: serve wants a port: --port 8080\n"),
            (["serve", NOTES, "--prt", "80"], b"urweb: serve has no option --prt, is it --port?\n"),
            (["serve", NOTES, "--port", "70000"], b"urweb: --port is a number from 1 to 65535, and not 70000\n"),
            (["check", NOTES, "\x1b[31m"], b"urweb: check takes one project, and \\x1b[31m is one word more\n"),
        ):
            self.assertEqual(ran(SCRIPT, words).stderr, line)

    def test_files_of_tables_that_cannot_be_attached(self) -> None:
        with tempfile.TemporaryDirectory() as new:
            Path(new, "text.db").write_text("no database, as one sees\n" * 9)
            for file, cause in (("no/a.db", "the folder {f}/no is not there"), ("text.db", "{f}/text.db is no database of SQLite"), ("", "{f} is a folder, and no file")):
                said = ran(SCRIPT, ["replay", NOTES, "--db", f"{new}/{file}".rstrip("/")])
                self.assertEqual(said.returncode, 7)
                self.assertIn(f"urweb: {cause}\n".replace("{f}", new).encode(), said.stderr)


if __name__ == "__main__":
    unittest.main()
