"""Where the repository and its program are, the words that scripts have, and what a machine has not."""
import argparse
import importlib.util
import os
import shutil
import subprocess
import sys
from pathlib import Path

TOP = Path(__file__).resolve().parents[2]
PROGRAM = TOP / "urweb"
NOTES = TOP / "examples" / "notes.urp"

# Set where a script is run again by the system's Python.
AGAIN = "TOOLS_BY_THE_SYSTEM"
SYSTEM = "/usr/bin/python3"


def reader(about: str | None) -> argparse.ArgumentParser:
    """Returns a reader of words for the script that runs, which says this of itself."""
    at = Path(sys.argv[0]).resolve()
    name = str(at.relative_to(TOP)) if at.is_relative_to(TOP) else at.name
    return argparse.ArgumentParser(prog=name, description=about, formatter_class=argparse.RawDescriptionHelpFormatter)


def reader_of_program(about: str | None) -> argparse.ArgumentParser:
    """Returns a reader of words for a script that runs the program."""
    read = reader(about)
    read.add_argument("--program", metavar="P", type=program_at, default=PROGRAM, help="the program (./urweb)")
    return read


def itself(program: Path) -> Path:
    """Returns the program that ./urweb runs, without what ./urweb explains; another one is itself."""
    if program != PROGRAM:
        return program
    return Path(subprocess.run([program, "version", "--program"], capture_output=True, text=True, check=True).stdout.strip())


def program_at(text: str) -> Path:
    """Returns the program at a path; one that is not there is refused."""
    path = Path(text).resolve()
    if not os.access(path, os.X_OK) or path.is_dir():
        raise argparse.ArgumentTypeError(f"{text} is no program")
    return path


def lacks(*commands: str) -> list[str]:
    """Returns the commands that this machine has not."""
    return [name for name in commands if shutil.which(name) is None]


def lacks_modules(*names: str) -> list[str]:
    """Returns the modules of Python that are not there. Where the system's own Python has all of them, the script is run by it."""
    lacking = [name for name in names if importlib.util.find_spec(name) is None]
    if lacking and AGAIN not in os.environ and has_modules(SYSTEM, names):
        os.execve(SYSTEM, [SYSTEM, *sys.argv], {**os.environ, AGAIN: "1"})
    return lacking


def has_modules(python: str, names: tuple[str, ...]) -> bool:
    """Whether a Python has all modules."""
    asked = f"import {', '.join(names)}"
    return os.access(python, os.X_OK) and subprocess.run([python, "-c", asked], capture_output=True, check=False).returncode == 0


def skipped(script: str, lacking: list[str]) -> int:
    """Says that a script is skipped, and why. Returns the status of that."""
    print(f"{script}: skipped, this machine has no " + ", ".join(lacking))
    return 0
