"""Whether a source of a project has changed since it was last looked at: by the system's word where `watchdog` is installed, else by looking."""
import os
import threading
import time
from collections.abc import Iterable
from importlib import import_module
from pathlib import Path
from typing import Any

from urweb_companion.project import folder_of, project_file, sources

# How often the files are looked at, and how long they stay as they are before a change counts as whole.
SECONDS_BETWEEN = 0.2
SECONDS_TO_SETTLE = 0.03
TRIES = 10

Marks = dict[Path, tuple[int, int, int]]


class Watch:
    """The sources of a project. `end` it in any case."""

    def __init__(self, project: str) -> None:
        self._project = project
        self._event = threading.Event()
        self._observer = _observer(folder_of(project), self._event)

    def marks(self) -> Marks:
        """Returns what tells one state of the sources from another."""
        return marks_of([project_file(self._project), *sources(self._project)])

    def wait(self) -> None:
        """Waits until it is time to look at the files again."""
        self._event.wait(SECONDS_BETWEEN)
        self._event.clear()

    def settled(self) -> Marks:
        """Waits until the sources stay as they are for a moment, and returns their marks."""
        marks = self.marks()
        for _ in range(TRIES):
            time.sleep(SECONDS_TO_SETTLE)
            last, marks = marks, self.marks()
            if last == marks:
                break
        return marks

    def end(self) -> None:
        if self._observer is not None:
            self._observer.stop()
            self._observer.join()


def marks_of(paths: Iterable[Path]) -> Marks:
    """Returns what tells one state of files from another; one that is not there has none."""
    found = {}
    for path in paths:
        try:
            it = os.stat(path)
        except OSError:
            continue
        found[path] = (it.st_mtime_ns, it.st_size, it.st_ino)
    return found


def changed(before: Marks, after: Marks) -> list[Path]:
    """Returns the files that are not as they were, or not there any more."""
    return sorted(path for path in before.keys() | after.keys() if before.get(path) != after.get(path))


class _Handler:
    """What the library calls for each thing that happens in the folder."""

    def __init__(self, event: threading.Event) -> None:
        self._event = event

    def dispatch(self, _: Any) -> None:
        self._event.set()


def _observer(folder: Path, event: threading.Event) -> Any:
    """Returns what sets the event where something happens in the folder, or none without the library."""
    try:
        observers = import_module("watchdog.observers")
    except ImportError:
        return None
    observer = observers.Observer()
    try:
        observer.schedule(_Handler(event), str(folder))
        observer.start()
    except OSError:
        return None
    return observer
