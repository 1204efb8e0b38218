"""Scripts that run others: each step with what it prints, and how many failed."""
import subprocess
import sys
import time
from collections.abc import Mapping, Sequence
from pathlib import Path

from lib.program import TOP


class Steps:
    """Steps that were run: how many, and the names of those that failed."""

    def __init__(self) -> None:
        self.count = 0
        self.failed: list[str] = []

    def run(self, command: Sequence[str | Path], seconds: float, environment: Mapping[str, str] | None = None) -> bool:
        """Runs a command at the top of the repository, ends it where it takes longer, and returns whether its status is 0."""
        words = [str(word) for word in command]
        name = " ".join(word.removeprefix(f"{TOP}/") for word in words)
        print(f"== {name}", flush=True)
        begin = time.monotonic()
        try:
            status: int | str = subprocess.run(words, cwd=TOP, env=environment, timeout=seconds, stdin=subprocess.DEVNULL, check=False).returncode
        except subprocess.TimeoutExpired:
            status = f"none within {seconds:.0f} seconds"
        except OSError as why:
            status = str(why)
        self.count += 1
        if status != 0:
            self.failed.append(name)
            print(f"== failed, status {status}: {name}", flush=True)
        else:
            print(f"== {time.monotonic() - begin:.1f} s", flush=True)
        return status == 0

    def told(self, script: str) -> int:
        """Prints how many steps failed, and returns the status of all."""
        print(f"{script}: {self.count} steps, {len(self.failed)} failed" + "".join(f"\n  {name}" for name in self.failed), flush=True)
        return 1 if self.failed or self.count == 0 else 0


def script(name: str, *words: str | Path) -> list[str | Path]:
    """Returns the command that runs a script of tools/."""
    return [sys.executable, TOP / "tools" / name, *words]
