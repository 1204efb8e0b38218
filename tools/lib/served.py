"""Processes that scripts start: a server on a free port of 127.0.0.1, the program with its streams, and requests to a server."""
import itertools
import random
import re
import signal
import socket
import subprocess
import threading
import time
import urllib.parse
from collections.abc import Mapping, Sequence
from pathlib import Path
from typing import IO, NamedTuple, Self

from lib.program import NOTES, TOP

HOST = "127.0.0.1"
# Ports below those that the system gives to clients, so that none of these takes a port before its server listens.
FIRST_PORT, LAST_PORT = 10_000, 32_000
BEGIN = random.SystemRandom().randrange(FIRST_PORT, LAST_PORT)
PORTS = itertools.cycle([*range(BEGIN, LAST_PORT), *range(FIRST_PORT, BEGIN)])

Stream = int | IO[bytes]


def free_port() -> int:
    """Returns a port that nobody listens on, another one at each call."""
    port: int
    for port in PORTS:
        with socket.socket() as link:
            link.setsockopt(socket.SOL_SOCKET, socket.SO_REUSEADDR, 1)
            try:
                link.bind((HOST, port))
            except OSError:
                continue
            return port
    raise RuntimeError("no port is free")


def listens(port: int) -> bool:
    """Whether something takes a connection to the port."""
    try:
        socket.create_connection((HOST, port), timeout=1).close()
        return True
    except OSError:
        return False


class Ended(NamedTuple):
    """How a process ended: its status, None where it was killed since it took too long, and what it printed and said since the last look."""

    status: int | None
    printed: bytes
    said: bytes


def hears_interrupts() -> None:
    """Has Ctrl-C end this process, also where the tries run in the background of a script."""
    signal.signal(signal.SIGINT, signal.SIG_DFL)


class Process:
    """A process with its streams, killed where it takes longer than it may."""

    def __init__(
        self,
        command: Sequence[str | Path | int],
        folder: Path = TOP,
        seconds: float = 300,
        environment: Mapping[str, str] | None = None,
        stdin: Stream = subprocess.DEVNULL,
        stdout: Stream = subprocess.PIPE,
        stderr: Stream = subprocess.PIPE,
    ) -> None:
        self.process = subprocess.Popen(
            [str(word) for word in command],
            cwd=folder,
            env=environment,
            bufsize=0,
            stdin=stdin,
            stdout=stdout,
            stderr=stderr,
            preexec_fn=hears_interrupts,
        )
        self.is_late = False
        self.clock = threading.Timer(seconds, self.late)
        self.clock.daemon = True
        self.clock.start()

    def late(self) -> None:
        self.is_late = True
        self.process.kill()

    def line(self) -> bytes:
        """Returns the next line that the process prints: of a server of ours, the first says that it serves."""
        return self.process.stdout.readline() if self.process.stdout else b""

    def ended(self, data: bytes | None = None) -> Ended:
        """Waits for the end, once the process has read these bytes."""
        printed, said = self.process.communicate(data)
        self.clock.cancel()
        return Ended(None if self.is_late else self.process.returncode, printed or b"", said or b"")

    def interrupt(self) -> Ended:
        """Ends the process by Ctrl-C."""
        self.process.send_signal(signal.SIGINT)
        return self.ended()


class Server:
    """A process that serves a port. `start` waits until it listens, which is before it has its tables; `kill` is kill -9, of it alone."""

    def __init__(self, command: Sequence[str | Path | int], port: int, folder: Path = TOP) -> None:
        self.command, self.port, self.folder = [str(word) for word in command], port, folder
        self.started: subprocess.Popen[bytes] | None = None

    @property
    def process(self) -> subprocess.Popen[bytes]:
        if self.started is None:
            raise RuntimeError(f"{self.command} is not started")
        return self.started

    def start(self, seconds: float = 300) -> Self:
        none = subprocess.DEVNULL
        self.started = subprocess.Popen(self.command, cwd=self.folder, stdin=none, stdout=none, stderr=none)
        end = time.monotonic() + seconds
        while not listens(self.port):
            if self.process.poll() is not None or time.monotonic() > end:
                raise RuntimeError(f"{self.command} does not serve, status {self.process.poll()}")
            time.sleep(0.01)
        return self

    def status(self) -> int | None:
        """Returns the status with which the process ended, and None while it runs."""
        return self.process.poll()

    def memory(self) -> int:
        """Returns the greatest memory of the process so far, in KiB."""
        with open(f"/proc/{self.process.pid}/status", encoding="utf-8") as lines:
            return next((int(line.split()[1]) for line in lines if line.startswith("VmHWM")), 0)

    def processor(self) -> float:
        """Returns the seconds that the process has had of a processor, all its threads together."""
        lines = [path.read_text() for path in Path(f"/proc/{self.process.pid}/task").glob("*/schedstat")]
        return sum(int(line.split()[0]) for line in lines) / 1e9

    def kill(self) -> None:
        if self.started is not None:
            self.started.kill()
            self.started.wait()

    def end(self, seconds: float = 10) -> None:
        """Asks the process to end, as one with workers of its own has to be asked; kills it where it does not."""
        self.process.terminate()
        try:
            self.process.wait(seconds)
        except subprocess.TimeoutExpired:
            self.kill()

    def __enter__(self) -> Self:
        return self.start()

    def __exit__(self, *_: object) -> None:
        self.kill()


def urweb(program: Path, *words: str | Path | int, project: Path = NOTES) -> Server:
    """Returns a server of the project, not started."""
    port = free_port()
    return Server([program, "serve", project, "--port", port, *words], port)


def request(method: str, path: str, fields: Mapping[str, str] | None = None, more: Sequence[str] = ()) -> bytes:
    """Returns the bytes of a request. With `fields` it has the body of a form."""
    lines, body = [f"{method} {path} HTTP/1.1", "Host: localhost", *more], b""
    if fields is not None:
        body = urllib.parse.urlencode(fields).encode()
        lines += ["Content-Type: application/x-www-form-urlencoded", f"Content-Length: {len(body)}"]
    return "\r\n".join(lines + ["", ""]).encode() + body


def connected(port: int, seconds: float = 30) -> socket.socket:
    """Returns a connection on which each piece goes out at once."""
    link = socket.create_connection((HOST, port), timeout=seconds)
    link.setsockopt(socket.IPPROTO_TCP, socket.TCP_NODELAY, 1)
    return link


def ask(port: int, method: str, path: str, fields: Mapping[str, str] | None = None, seconds: float = 30) -> tuple[int, bytes]:
    """Asks on a connection of its own, and returns the status and the body."""
    with socket.create_connection((HOST, port), timeout=seconds) as link:
        link.sendall(request(method, path, fields, ["Connection: close"]))
        given = b"".join(iter(lambda: link.recv(65536), b""))
    head, _, body = given.partition(b"\r\n\r\n")
    length = re.search(rb"\r\nContent-Length: (\d+)", head)
    if not head.startswith(b"HTTP/1.1 ") or length is None or (method != "HEAD" and len(body) != int(length[1])):
        raise ConnectionError(f"no whole answer: {given!r}")
    return int(head.split()[1]), body
