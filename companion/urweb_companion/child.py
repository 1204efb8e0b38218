"""A run of `serve` on a free port of its own: whether it answers yet, and what it ended with. It ends with whoever started it."""
import contextlib
import shutil
import socket
import subprocess
import tempfile
import time
from collections.abc import Callable, Sequence

from urweb_companion.program import find

HOST = "127.0.0.1"
PROBE = b"HEAD / HTTP/1.1\r\nHost: localhost\r\nConnection: close\r\n\r\n"
SERVING = b"serving on "

# How long the program is given to end before it is killed, and how often it is looked at while it starts.
SECONDS_TO_END = 5.0
SECONDS_BETWEEN = 0.005


def free_port() -> int:
    """Returns a port that nothing listens on."""
    with socket.socket() as link:
        link.bind((HOST, 0))
        port: int = link.getsockname()[1]
        return port


class Child:
    """A process that serves a project. `end` it in any case."""

    def __init__(self, project: str, options: Sequence[str] = ()) -> None:
        self.port = free_port()
        self._said = tempfile.TemporaryFile()
        self._probe: socket.socket | None = None
        # Where the system has it, the process is killed when its parent is.
        guard = ["setpriv", "--pdeathsig", "KILL", "--"] if shutil.which("setpriv") else []
        words = [str(find()), "serve", "--port", str(self.port), *options, "--", project]
        # A group of its own: keys of the terminal end the parent, and it ends the process.
        self._process = subprocess.Popen([*guard, *words], stdin=subprocess.DEVNULL, stdout=self._said, stderr=subprocess.STDOUT, process_group=0)

    def status(self) -> int | None:
        """Returns what the process ended with, and none while it runs."""
        return self._process.poll()

    def said(self) -> bytes:
        """Returns what the process has printed behind the line with its port."""
        self._said.seek(0)
        first, end, rest = self._said.read().partition(b"\n")
        return rest if first.startswith(SERVING) else first + end + rest

    def settled(self, seconds: float, is_in_vain: Callable[[], bool] = lambda: False) -> bool:
        """Waits until the process answers or has ended, or until to wait is in vain; tells whether it answers."""
        end = time.monotonic() + seconds
        while self.status() is None and time.monotonic() < end and not is_in_vain():
            if self._answers():
                return True
            time.sleep(SECONDS_BETWEEN)
        return False

    def _answers(self) -> bool:
        """Whether an answer has come to the request that is sent first. The port is listened on before the project is compiled."""
        try:
            if self._probe is None:
                self._probe = socket.create_connection((HOST, self.port), 1)
                self._probe.sendall(PROBE)
                self._probe.settimeout(0)
            answered = self._probe.recv(1) != b""
        except BlockingIOError:
            return False
        except OSError:
            answered = False
        self._forget()
        return answered

    def _forget(self) -> None:
        if self._probe is not None:
            self._probe.close()
            self._probe = None

    def end(self) -> None:
        """Ends the process, and waits until it has."""
        self._forget()
        with contextlib.suppress(ProcessLookupError):
            self._process.terminate()
        try:
            self._process.wait(SECONDS_TO_END)
        except subprocess.TimeoutExpired:
            self._process.kill()
            self._process.wait()
        self._said.close()

    def __enter__(self) -> "Child":
        return self

    def __exit__(self, *_: object) -> None:
        self.end()
