"""Where the program is, how it is run, and what its statuses say."""
import os
import subprocess
from collections.abc import Sequence
from dataclasses import dataclass
from enum import IntEnum
from functools import cache
from pathlib import Path

VARIABLE = "URWEB_PROGRAM"


class Status(IntEnum):
    """What the program ends with."""

    OK = 0
    USAGE = 1
    REFUSED = 2
    SCHEMA = 3
    SHELF = 4
    REPORT = 5
    WIRE = 6
    KEEPER = 7
    MEMORY = 8


@dataclass(frozen=True)
class Answer:
    """What a run of the program gave."""

    status: int
    out: bytes
    err: bytes

    @property
    def text(self) -> str:
        return self.out.decode("utf-8", "replace")


class NoProgram(Exception):
    """There is no program that may be run; the text says why."""


def top() -> Path:
    """Returns the folder in which `urweb` stands."""
    return Path(__file__).resolve().parents[2]


@cache
def find() -> Path:
    """Returns the program: the one that `./urweb` has chosen, or else the one that it would choose."""
    chosen = os.environ.get(VARIABLE)
    if chosen:
        return Path(chosen)
    script = top() / "urweb"
    ran = subprocess.run([script, "version", "--program"], stdin=subprocess.DEVNULL, capture_output=True, text=True)
    if ran.returncode != 0:
        raise NoProgram(ran.stderr.strip() or f"{script} gives no program")
    return Path(ran.stdout.rstrip("\n"))


def run(words: Sequence[str], stdin: bytes = b"", folder: Path | None = None, seconds: float | None = None) -> Answer:
    """Runs the program with these words in a folder, and returns what it gave; `TimeoutExpired` where it takes longer."""
    ran = subprocess.run([find(), *words], input=stdin, capture_output=True, cwd=folder, timeout=seconds)
    return Answer(ran.returncode, ran.stdout, ran.stderr)


def start(words: Sequence[str], folder: Path | None = None) -> subprocess.Popen[bytes]:
    """Starts the program with these words, its input empty and its output piped."""
    return subprocess.Popen([find(), *words], stdin=subprocess.DEVNULL, stdout=subprocess.PIPE, stderr=subprocess.PIPE, cwd=folder)
