"""What a run of a program takes: the processor's seconds and the greatest memory.

A process counts the memory of the one that started it, as long as that is more than its own. So runs are started by a small program in C (used.c),
where gcc is there; else no run is told to take less than this process had.
"""
import functools
import os
import shutil
import subprocess
import tempfile
from collections.abc import Sequence
from pathlib import Path
from typing import IO, NamedTuple

SOURCE = Path(__file__).with_name("used.c")


class Used(NamedTuple):
    """What a run took: its status, below 0 the number of a signal, the processor's seconds, and the greatest KiB."""

    status: int
    seconds: float
    kib: int


@functools.cache
def starter() -> tuple[Path, tempfile.TemporaryDirectory[str]] | None:
    """Returns the program that starts runs, with the folder that it stands in; none where there is no gcc."""
    if shutil.which("gcc") is None:
        return None
    folder = tempfile.TemporaryDirectory()
    made = Path(folder.name) / "used"
    subprocess.run(["gcc", "-O1", "-o", made, SOURCE], check=True)
    return made, folder


def used_by(command: Sequence[str | Path], folder: Path | str, stdin: IO[bytes] | int = subprocess.DEVNULL, stdout: IO[bytes] | int | None = None) -> Used:
    """Runs a command in a folder to its end, and returns what it took."""
    start = starter()
    if start is None:
        process = subprocess.Popen(command, cwd=folder, stdin=stdin, stdout=stdout)
        _, status, used = os.wait4(process.pid, 0)
        process.returncode = os.waitstatus_to_exitcode(status)
        return Used(process.returncode, used.ru_utime + used.ru_stime, used.ru_maxrss)
    read, write = os.pipe()
    with open(read, encoding="utf-8") as told:
        with open(write, "w", encoding="utf-8") as writing:
            process = subprocess.Popen([start[0], str(writing.fileno()), *command], cwd=folder, stdin=stdin, stdout=stdout, pass_fds=[writing.fileno()])
        process.wait()
        micros, kib, status = map(int, told.read().split())
    return Used(status, micros / 1e6, kib)
