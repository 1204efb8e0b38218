"""What stands before the program while one writes: it takes connections in threads, asks the program on one for each request, and logs."""
import contextlib
import socket
import socketserver
import sys
import threading
import time
from collections.abc import Callable
from pathlib import Path
from typing import Any

from urweb_companion import pages
from urweb_companion.clear import clear
from urweb_companion.first_page import first_page
from urweb_companion.gate import Ended, Gate, Serving
from urweb_companion.messages import Reply, Request, ask, read_request, reply

HOST = "127.0.0.1"

# How long a client may be silent, the program start, and an answer take.
SECONDS_SILENT = 30.0
SECONDS_TO_START = 60.0
SECONDS_TO_ANSWER = 60.0

# How often a page is asked for again where the program was started anew meanwhile.
TRIES = 3
READING = ("GET", "HEAD")


class Front(socketserver.ThreadingTCPServer):
    """The server that browsers see."""

    allow_reuse_address = True
    daemon_threads = True
    block_on_close = False
    request_queue_size = 128

    def __init__(self, port: int, project: str, store: Path, gate: Gate, say: Callable[[str], None]) -> None:
        super().__init__((HOST, port), _Handler)
        self.project, self.store, self.gate, self.say = project, store, gate, say

    @property
    def port(self) -> int:
        port: int = self.server_address[1]
        return port

    def start(self) -> None:
        threading.Thread(target=self.serve_forever, args=(0.1,), daemon=True).start()

    def end(self) -> None:
        self.shutdown()
        self.server_close()

    def handle_error(self, request: Any, client_address: Any) -> None:
        """Prints what is wrong here; a client that goes away is no fault."""
        if not isinstance(sys.exception(), OSError):
            super().handle_error(request, client_address)

    def answer(self, request: Request) -> Reply:
        """Returns what the program answers, or a page that says why it does not."""
        for _ in range(TRIES):
            with self.gate.passing(SECONDS_TO_START) as state:
                if not isinstance(state, Serving):
                    return self._page(state)
                found = self._asked(state.port, request)
            if found is not None:
                return found
            if request.method not in READING:
                break
        return pages.lost(request.method)

    def _page(self, state: Ended | None) -> Reply:
        return pages.starting() if state is None else pages.ended(self.project, self.store, state)

    def _asked(self, port: int, request: Request) -> Reply | None:
        """Returns the program's answer, or none where it ended before it was whole."""
        if request.path == "/" and request.method in READING:
            page = first_page(self.project, port)
            if page is not None:
                return reply("303 See Other", b"", f"Location: {page}")
        try:
            found = ask(port, request.alone(), SECONDS_TO_ANSWER)
        except TimeoutError:
            return pages.late(SECONDS_TO_ANSWER)
        except OSError:
            return None
        return found if found.is_whole(request.method) else None


class _Handler(socketserver.BaseRequestHandler):
    """One request of a connection."""

    server: Front
    request: socket.socket

    def handle(self) -> None:
        self.request.settimeout(SECONDS_SILENT)
        try:
            asked = read_request(self.request)
        except OSError:
            return
        if asked is None:
            return
        begin = time.monotonic()
        given = self.server.answer(asked)
        self._log(asked, given, time.monotonic() - begin)
        data = given.data
        if asked.method == "HEAD":
            data = data[:len(data) - len(given.body)]
        with contextlib.suppress(OSError):
            self.request.sendall(data)
            self._leave()

    def _log(self, asked: Request, given: Reply, seconds: float) -> None:
        """Says the time, the method, the path, the status, the bytes of the page and the milliseconds."""
        size = 0 if asked.method == "HEAD" else len(given.body)
        line = f"{clear(asked.method, 10)} {clear(asked.path, 200)} {given.status} {size} {seconds * 1000:.1f} ms"
        self.server.say(line)

    def _leave(self) -> None:
        """Ends the connection once the client has the answer, also where it was still sending."""
        self.request.shutdown(socket.SHUT_WR)
        self.request.settimeout(1)
        for _ in range(256):
            if not self.request.recv(65_536):
                break
