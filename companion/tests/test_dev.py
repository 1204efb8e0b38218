"""`dev`: changes, refusals, tables of before, browsers beside one another, and what is left when it ends."""
import os
import shutil
import signal
import socket
import subprocess
import sys
import threading
import time
import unittest
import urllib.error
import urllib.request
from collections.abc import Callable
from pathlib import Path
from urllib.parse import urlencode

import context
from runs import hears
from trying import GUESTBOOK, SECONDS, Trial, ran
from urweb_companion import dev
from urweb_companion.child import Child
from urweb_companion.first_page import first_page
from urweb_companion.messages import Reply, Request, ask, read_request


def is_busy() -> bool:
    """Whether others want the processors too: then it is not looked at how long a page and a change take."""
    return os.getloadavg()[0] > (os.cpu_count() or 1)


def processes(word: str) -> list[int]:
    """Returns the processes that have a word among theirs."""
    found = []
    for path in Path("/proc").glob("[0-9]*/cmdline"):
        try:
            words = path.read_bytes().split(b"\0")
        except OSError:
            continue
        if word.encode() in words:
            found.append(int(path.parent.name))
    return found


def until(is_so: Callable[[], bool]) -> bool:
    """Waits until it is so."""
    end = time.monotonic() + SECONDS
    while time.monotonic() < end:
        if is_so():
            return True
        time.sleep(0.02)
    return False


class Dev:
    """A process of `dev` on a free port, and the lines that it has printed."""

    def __init__(self, project: Path, *words: str, temporary: Path) -> None:
        command = [sys.executable, str(context.TOP / "companion"), "dev", str(project), "--port", "0", *words]
        self.process = subprocess.Popen(command, stdout=subprocess.PIPE, stderr=subprocess.STDOUT, text=True, preexec_fn=hears,
                                        env={**os.environ, "TMPDIR": str(temporary)})
        self.lines: list[str] = []
        reader = threading.Thread(target=self._read, daemon=True)
        reader.start()
        until(lambda: any(" http://" in line for line in self.lines) or self.process.poll() is not None)
        if not self.lines or self.process.poll() is not None:
            reader.join(1)
            raise AssertionError(f"dev does not serve, status {self.process.poll()}: {self.lines}")
        self.port = int(self.lines[0].split("http://127.0.0.1:")[1].split("/")[0])

    def _read(self) -> None:
        assert self.process.stdout is not None
        for line in self.process.stdout:
            self.lines.append(line.rstrip("\n"))

    def end(self, number: int = signal.SIGTERM) -> int:
        self.process.send_signal(number)
        status = self.process.wait(SECONDS)
        assert self.process.stdout is not None
        return status

    def ask(self, path: str, fields: dict[str, str] | None = None, method: str | None = None, **head: str) -> tuple[int, str]:
        """Returns the status and the page."""
        body = urlencode(fields).encode() if fields is not None else None
        asked = urllib.request.Request(f"http://127.0.0.1:{self.port}{path}", body, head, method=method)
        try:
            with urllib.request.urlopen(asked, timeout=SECONDS) as given:
                return given.status, given.read().decode()
        except urllib.error.HTTPError as given:
            return given.code, given.read().decode()

    def shows(self, path: str, text: str) -> bool:
        return until(lambda: text in self.ask(path)[1])

    def raw(self, data: bytes) -> bytes:
        """Returns what comes on a connection to which these bytes are sent."""
        with socket.create_connection(("127.0.0.1", self.port), SECONDS) as link:
            link.sendall(data)
            return b"".join(iter(lambda: link.recv(65536), b""))


class Devs(Trial):
    def started(self, project: Path | None = None, *words: str) -> Dev:
        found = Dev(project or self.notes, *words, temporary=self.folder)

        def end() -> None:
            if found.process.poll() is None:
                found.end()
            assert found.process.stdout is not None
            found.process.stdout.close()

        self.addCleanup(end)
        return found

    def test_pages_forms_and_the_log(self) -> None:
        it = self.started()
        self.assertEqual(it.ask("/Main/list/ann")[0], 200)
        self.assertEqual(it.ask("/Main/add/ann", {"Body": "a&b"})[0], 200)
        self.assertIn("<p>a&amp;b</p>", it.ask("/Main/list/ann")[1])
        self.assertEqual(it.ask("/Main/list/ann", method="HEAD"), (200, ""))
        self.assertEqual([it.ask("/none")[0], it.ask("/Main/add/ann")[0], it.ask("/Main/list/ann", method="PUT")[0]], [404, 405, 501])
        given = it.raw(b"GET / HTTP/1.1\r\nHost: localhost\r\n\r\n")
        self.assertTrue(given.startswith(b"HTTP/1.1 303 See Other\r\n"), given)
        self.assertIn(b"\r\nLocation: /Main/list/x\r\n", given)
        self.assertTrue(until(lambda: len(it.lines) >= 10))
        self.assertRegex(it.lines[2], r"^\d\d:\d\d:\d\d GET /Main/list/ann 200 207 \d+\.\d ms$")
        self.assertRegex(it.lines[5], r"^\d\d:\d\d:\d\d HEAD /Main/list/ann 200 0 \d+\.\d ms$")
        self.assertRegex(it.lines[9], r"^\d\d:\d\d:\d\d GET / 303 0 \d+\.\d ms$")

    def test_answers_are_the_program_s(self) -> None:
        store = self.folder / "own.db"
        with Child(str(GUESTBOOK / "8-record" / "guestbook.urp")) as child:
            self.assertTrue(child.settled(SECONDS))
            it = self.started(GUESTBOOK / "8-record" / "guestbook.urp", f"--db={store}")
            sign = b"POST /Guestbook/sign HTTP/1.1\r\nHost: x\r\n"
            book = b"GET /Guestbook/main HTTP/1.1\r\n"
            for data in (
                sign + b"Content-Type: application/x-www-form-urlencoded\r\nContent-Length: 12\r\nConnection: keep-alive\r\n\r\nName=ann%20b",
                book.replace(b"GET", b"HEAD") + b"Host: x\r\nConnection: close\r\n\r\n", book + b"Host: x\r\nCookie: Guestbook.name=bob\r\n\r\n",
                book + b"\r\n", book.replace(b"1.1", b"1.0") + b"\r\n", b"nonsense\r\n\r\n", book + b"Host: x\r\nA: " + b"b" * 20_000 + b"\r\n\r\n",
                sign + b"Transfer-Encoding: chunked\r\n\r\n", sign + b"Content-Length: 2000000\r\n\r\n",
            ):
                self.assertEqual(it.raw(data), ask(child.port, _closing(data), SECONDS).data, data[:60])

    def test_a_change_is_shown(self) -> None:
        it = self.started()
        self.assertEqual(it.ask("/Main/list/ann")[0], 200)
        it.ask("/Main/add/ann", {"Body": "stays"})
        for at in range(3):
            self.change("<title>Notes" if at == 0 else f"<title>Book {at}", f"<title>Book {at + 1}")
            begin = time.monotonic()
            self.assertTrue(it.shows("/Main/list/ann", f"<title>Book {at + 1}"))
            self.assertTrue(time.monotonic() - begin < 1 or is_busy())
        self.assertIn("<p>stays</p>", it.ask("/Main/list/ann")[1])

    def test_a_refusal_is_a_page(self) -> None:
        it = self.started()
        self.assertEqual(it.ask("/Main/list/ann")[0], 200)
        self.change("return <xml><head><title>Notes</title>", "return <xml><head><tytle>Notes</tytle>")
        self.assertTrue(it.shows("/Main/list/ann", "notes.urp is refused"))
        status, page = it.ask("/Main/list/ann")
        self.assertEqual((status, "main.ur" in page, "E13" in page, "&lt;tytle&gt;" in page or "tytle" in page), (500, True, True, True), page)
        self.assertTrue(any("E13" in line for line in it.lines), it.lines)
        self.change("<tytle>Notes</tytle>", "<title>Mended</title>")
        self.assertTrue(it.shows("/Main/list/ann", "<title>Mended"))

    def test_tables_of_before(self) -> None:
        store = self.folder / "kept.db"
        it = self.started(None, f"--db={store}")
        it.ask("/Main/add/ann", {"Body": "old"})
        self.add_columns()
        self.assertTrue(it.shows("/Main/list/ann", "The tables are others"))
        page = it.ask("/Main/list/ann")[1]
        self.assertIn(f"./urweb migrate {self.notes} {store} {self.folder / 'kept-new.db'}", page)
        self.assertIn("table Main.note Body:string Done:bool Id:int", page)
        store.unlink()
        store.with_name("kept.db-wal").unlink(missing_ok=True)
        self.assertTrue(it.shows("/Main/list/ann", "<h1>ann</h1>"))
        self.assertNotIn("old", it.ask("/Main/list/ann")[1])

    def test_a_file_that_another_has(self) -> None:
        with Child(str(self.notes), [f"--db={self.store}"]) as child:
            self.assertTrue(child.settled(SECONDS))
            it = self.started(None, f"--db={self.store}")
            self.assertTrue(it.shows("/Main/list/ann", "The file of tables cannot be used"))

    def test_rows_survive_a_restart_without_a_file(self) -> None:
        first = self.started()
        first.ask("/Main/add/ann", {"Body": "stays"})
        self.assertEqual(first.end(signal.SIGINT), 0)
        self.assertIn("<p>stays</p>", self.started().ask("/Main/list/ann")[1])
        folder = self.folder / f"urweb-dev-{os.getuid()}"
        self.assertEqual((folder.stat().st_mode & 0o777, len(list(folder.glob("notes-*.db")))), (0o700, 1))

    def test_two_browsers_in_turn(self) -> None:
        it = self.started()
        self.assertEqual(it.ask("/Main/list/ann")[0], 200)
        # Browsers open connections on which nothing comes.
        idle = [socket.create_connection(("127.0.0.1", it.port), SECONDS) for _ in range(4)]
        turns = [threading.Semaphore(1), threading.Semaphore(0)]
        found: list[int] = []

        def browse(at: int) -> None:
            for page in range(10):
                turns[at].acquire()
                found.append(it.ask("/Main/add/ann", {"Body": str(page)})[0] if page % 3 == 0 else it.ask("/Main/list/ann")[0])
                turns[1 - at].release()

        begin = time.monotonic()
        browsers = [threading.Thread(target=browse, args=(at,)) for at in range(2)]
        for browser in browsers:
            browser.start()
        for browser in browsers:
            browser.join(SECONDS)
        self.assertEqual(found, [200] * 20)
        self.assertTrue(time.monotonic() - begin < 4 or is_busy())
        for link in idle:
            link.close()

    def test_nothing_is_left_on_signals(self) -> None:
        for number in (signal.SIGINT, signal.SIGTERM, signal.SIGHUP, *([signal.SIGKILL] if shutil.which("setpriv") else [])):
            it = self.started()
            self.assertEqual(it.ask("/Main/list/ann")[0], 200)
            self.assertEqual(len([pid for pid in processes(str(self.notes)) if pid != it.process.pid]), 1)
            self.assertEqual(it.end(number), 0 if number != signal.SIGKILL else -signal.SIGKILL)
            self.assertTrue(until(lambda: processes(str(self.notes)) == []), number)
            with self.assertRaises(OSError):
                socket.create_connection(("127.0.0.1", it.port), 1)

    def test_wrong_uses(self) -> None:
        self.refused(ran(dev.main), "required", 2)
        for port in ("x", "65536", "-1", "٣"):
            self.refused(ran(dev.main, self.notes, f"--port={port}"), "is no port", 2)
        self.refused(ran(dev.main, self.folder / "none", "--port=0"), "there is no project")
        with socket.create_server(("127.0.0.1", 0)) as taken:
            self.refused(ran(dev.main, self.notes, f"--port={taken.getsockname()[1]}", f"--db={self.store}"), "give another with --port")


def _closing(data: bytes) -> bytes:
    """Returns a request that asks for its connection to be closed."""
    head, end, body = data.partition(b"\r\n\r\n")
    return head.replace(b"\r\nConnection: keep-alive", b"").replace(b"\r\nConnection: close", b"") + b"\r\nConnection: close" + end + body


class FirstPages(Trial):
    def first(self, project: Path) -> str | None:
        with Child(str(project)) as child:
            self.assertTrue(child.settled(SECONDS), child.said())
            return first_page(str(project), child.port)

    def test_examples(self) -> None:
        self.assertEqual(self.first(self.notes), "/Main/list/x")
        self.assertEqual(self.first(context.EXAMPLES / "hello.urp"), "/Hello/main/1")
        self.assertEqual(self.first(GUESTBOOK / "8-record" / "guestbook.urp"), "/Guestbook/main")

    def test_a_project_without_a_page(self) -> None:
        self.write("m.ur", "val a : int = 1\n")
        self.assertIsNone(self.first(self.write("m.urp", "m\n")))


class Messages(unittest.TestCase):
    def test_fields_of_the_connection_alone_are_changed(self) -> None:
        head = b"POST /a HTTP/1.1\r\nHost: x\r\nconnection: Keep-Alive\r\nX-Connection: y\r\nKeep-Alive: 5\r\nCookie: a=b\r\n\r\n"
        found = Request(head, b"c").alone()
        self.assertEqual(found, b"POST /a HTTP/1.1\r\nHost: x\r\nX-Connection: y\r\nCookie: a=b\r\nConnection: close\r\n\r\nc")

    def test_requests_in_pieces(self) -> None:
        ours, theirs = socket.socketpair()
        with ours, theirs:
            for piece in (b"POST /a HTTP/1.1\r\nContent-", b"Length: 3\r\n\r", b"\nx", b"yzw"):
                ours.sendall(piece)
            self.assertEqual(read_request(theirs), Request(b"POST /a HTTP/1.1\r\nContent-Length: 3\r\n\r\n", b"xyz"))
        ours, theirs = socket.socketpair()
        with theirs:
            with ours:
                ours.sendall(b"GET /a HTTP/1.1\r\n")
            self.assertIsNone(read_request(theirs))

    def test_whole_answers(self) -> None:
        answer = Reply(b"HTTP/1.1 200 OK\r\nContent-Length: 2\r\n\r\nab")
        self.assertEqual((answer.status, answer.body), (200, b"ab"))
        self.assertTrue(answer.is_whole("GET") and Reply(answer.data[:-2]).is_whole("HEAD"))
        self.assertFalse(Reply(answer.data[:-1]).is_whole("GET") or Reply(b"").is_whole("HEAD"))


if __name__ == "__main__":
    unittest.main()
