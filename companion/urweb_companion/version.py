"""`version`: the program that is run, and what it was built from."""
import argparse
import os
import platform
from collections.abc import Sequence

from urweb_companion.program import VARIABLE, top


def main(words: Sequence[str]) -> int:
    parser = argparse.ArgumentParser(prog="urweb version", description="Says which program is run, and what it was built from.")
    parser.add_argument("--program", action="store_true", help="print the path of the program alone")
    parser.parse_args(words)
    program = os.environ.get(VARIABLE)
    print(f"program  {program or 'none may be run'}")
    for name, value in zip(("sources", "kit", "sum"), sums()):
        print(f"{name:<8} {value}")
    print(f"python   {platform.python_version()}")
    return 0 if program else 1


def sums() -> list[str]:
    """Returns the lines of bin/sources.sum: the sum of the sources, the kit, and the sum of bin/urweb."""
    try:
        return (top() / "bin" / "sources.sum").read_text(encoding="utf-8").splitlines()
    except OSError:
        return []
