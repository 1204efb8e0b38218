"""Runs of `./urweb` and of the program itself, for the tests that compare them."""
import signal
import socket
import subprocess
import time
from collections.abc import Sequence
from pathlib import Path

import context

SCRIPT = context.TOP / "urweb"
SECONDS = 300


def free_port() -> int:
    """Returns a port that nobody listens on."""
    with socket.socket() as it:
        it.bind(("127.0.0.1", 0))
        port: int = it.getsockname()[1]
        return port


def ran(program: Path, words: Sequence[str], stdin: bytes = b"", folder: Path = context.TOP) -> subprocess.CompletedProcess[bytes]:
    return subprocess.run([program, *words], input=stdin, capture_output=True, cwd=folder, timeout=SECONDS)


def hears(ignored: Sequence[int] = ()) -> None:
    """Has this process ignore these signals alone, also where the tests run in the background of a script or under `nohup`."""
    for number in (signal.SIGHUP, signal.SIGINT, signal.SIGQUIT, signal.SIGTERM, signal.SIGUSR1, signal.SIGUSR2):
        signal.signal(number, signal.SIG_IGN if number in ignored else signal.SIG_DFL)


def started(program: Path, words: Sequence[str], folder: Path = context.TOP, ignored: Sequence[int] = ()) -> subprocess.Popen[bytes]:
    """Starts a server, with these signals ignored."""
    return subprocess.Popen([program, *words], stdin=subprocess.DEVNULL, stdout=subprocess.PIPE, stderr=subprocess.PIPE, cwd=folder,
                            preexec_fn=lambda: hears(ignored))


def fetched(port: int, request: bytes) -> bytes:
    """Sends a request, trying until somebody listens, and returns all that comes."""
    end = time.monotonic() + SECONDS
    while True:
        try:
            with socket.create_connection(("127.0.0.1", port), timeout=SECONDS) as it:
                it.sendall(request)
                return b"".join(iter(lambda: it.recv(65536), b""))
        except ConnectionRefusedError:
            if time.monotonic() > end:
                raise
            time.sleep(0.02)


def children(pid: int) -> list[int]:
    """Returns the processes that this one has started and that are there."""
    path = Path(f"/proc/{pid}/task/{pid}/children")
    return [int(it) for it in path.read_text().split()] if path.exists() else []


def is_alive(pid: int) -> bool:
    """Whether the process is there, and has not ended."""
    try:
        return Path(f"/proc/{pid}/stat").read_text().rsplit(")", 1)[1].split()[0] != "Z"
    except (FileNotFoundError, ProcessLookupError):
        return False
