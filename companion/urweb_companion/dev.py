"""`dev`: serves a project while one writes it, and starts the program anew when a source changes."""
import argparse
import hashlib
import os
import signal
import stat
import sys
import tempfile
import threading
import time
from collections.abc import Iterator, Sequence
from contextlib import contextmanager
from pathlib import Path

from urweb_companion.child import Child
from urweb_companion.clear import clear
from urweb_companion.front import SECONDS_TO_START, Front
from urweb_companion.gate import Ended, Gate, Serving, State
from urweb_companion.layout import Refused
from urweb_companion.pages import explained
from urweb_companion.program import NoProgram, Status
from urweb_companion.project import project_file
from urweb_companion.store import log_of
from urweb_companion.watching import Marks, Watch, changed, marks_of

DESCRIPTION = """Serves a project on 127.0.0.1 while one writes it. When a source changes the program is started anew; where it refuses the project, each
page says why. A line is printed for each request: the time, the method, the path, the status, the bytes and the milliseconds."""

PORT = 8080
SIGNALS = (signal.SIGINT, signal.SIGTERM, signal.SIGHUP, signal.SIGQUIT)

# How long requests under way may take before the program is started anew.
SECONDS_TO_FINISH = 0.3

# A program that has served for less than this is not started again before a file changes.
SECONDS_OF_USE = 1.0


def main(words: Sequence[str]) -> int:
    parsed = _parser().parse_args(words)
    stop = threading.Event()
    with ended_by_signals(stop):
        try:
            _dev(parsed.project, parsed.port, Path(parsed.db) if parsed.db else own_store(parsed.project), stop)
        except (Refused, NoProgram) as why:
            print(f"urweb dev: {why}", file=sys.stderr)
            return 1
    return 0


@contextmanager
def ended_by_signals(stop: threading.Event) -> Iterator[None]:
    """Has signals set the event, but for a SIGHUP that is ignored already, as `nohup` has it."""
    before = {it: signal.getsignal(it) for it in SIGNALS}
    for number, handler in before.items():
        if number != signal.SIGHUP or handler != signal.SIG_IGN:
            signal.signal(number, lambda _number, _frame: stop.set())
    try:
        yield
    finally:
        for number, handler in before.items():
            signal.signal(number, handler)


def _parser() -> argparse.ArgumentParser:
    parser = argparse.ArgumentParser(prog="urweb dev", description=DESCRIPTION)
    parser.add_argument("project", metavar="P", help="the project")
    parser.add_argument("--port", metavar="n", type=_port, default=PORT, help=f"the port, {PORT} without this; 0 is any free one")
    parser.add_argument("--db", metavar="f", help="the file of tables; without this one of the project's own below the folder for temporary files")
    return parser


def _port(word: str) -> int:
    if not word.isascii() or not word.isdigit() or int(word) > 65_535:
        raise argparse.ArgumentTypeError(f"{word!r} is no port")
    return int(word)


def own_store(project: str) -> Path:
    """Returns the path of a project's own file of tables, in a folder that is this user's alone."""
    folder = Path(tempfile.gettempdir()) / f"urweb-dev-{os.getuid()}"
    folder.mkdir(mode=0o700, exist_ok=True)
    found = folder.lstat()
    if not stat.S_ISDIR(found.st_mode) or found.st_uid != os.getuid() or found.st_mode & 0o077:
        raise Refused(f"{folder} is not a folder of this user alone; give a file with --db")
    file = project_file(project).resolve()
    return folder / f"{file.stem}-{hashlib.sha256(os.fsencode(file)).hexdigest()[:12]}.db"


# Lines are printed by several threads.
SAYING = threading.Lock()


def say(line: str) -> None:
    """Prints a line with the time. Where nobody reads any more, serving goes on."""
    with SAYING:
        try:
            print(f"{time.strftime('%H:%M:%S')} {line}", flush=True)
        except OSError:
            sys.stdout = open(os.devnull, "w", encoding="utf-8")


def _dev(project: str, port: int, store: Path, stop: threading.Event) -> None:
    if not project_file(project).is_file():
        raise Refused(f"there is no project {project_file(project)}")
    gate = Gate()
    try:
        front = Front(port, project, store, gate, say)
    except OSError as why:
        raise Refused(f"port {port} cannot be listened on: {why.strerror}; give another with --port") from None
    front.start()
    watch = Watch(project)
    try:
        say(f"http://127.0.0.1:{front.port}/ serves {project}, its tables are in {store}; Ctrl-C ends it")
        Turns(project, store, gate, watch, stop).run()
    finally:
        watch.end()
        front.end()


class Turns:
    """The program started again and again, until it is time to stop. One thread starts it, with which it would end."""

    def __init__(self, project: str, store: Path, gate: Gate, watch: Watch, stop: threading.Event) -> None:
        self._project, self._store, self._gate, self._watch, self._stop = project, store, gate, watch, stop
        self._sources: Marks = {}
        self._tables: Marks = {}

    def run(self) -> None:
        while not self._stop.is_set():
            self._sources = self._watch.settled()
            with Child(self._project, [f"--db={self._store}"]) as child:
                state = self._state(child)
                if state is not None:
                    self._turn(child, state)

    def _state(self, child: Child) -> State | None:
        """Returns what came of a start, and none where it is in vain."""
        if child.settled(SECONDS_TO_START, lambda: self._stop.is_set() or self._watch.marks() != self._sources):
            return Serving(child.port)
        status = child.status()
        if status == Status.WIRE:
            self._stop.wait(SECONDS_TO_FINISH)
        return None if status is None or status == Status.WIRE else Ended(status, child.said())

    def _turn(self, child: Child, state: State) -> None:
        """Serves until a file changes or the program ends."""
        begin = time.monotonic()
        self._show(state)
        while not self._stop.is_set() and not self._is_changed(state):
            self._watch.wait()
            status = child.status()
            if status is not None and isinstance(state, Serving):
                if time.monotonic() - begin > SECONDS_OF_USE:
                    break
                state = Ended(status, child.said())
                self._show(state)
        self._gate.close(SECONDS_TO_FINISH)

    def _show(self, state: State) -> None:
        """Lets requests in, and says what they find."""
        self._tables = marks_of(self._table_files())
        self._gate.open(state)
        if isinstance(state, Serving):
            say("serving")
        elif state.status == Status.REFUSED:
            say(f"refused\n{explained(state.said.decode('utf-8', 'replace')).rstrip()}")
        else:
            say(f"the program ended with status {state.status}; each page says what to do")

    def _table_files(self) -> list[Path]:
        return [self._store, log_of(self._store)]

    def _is_changed(self, state: State) -> bool:
        """Whether a source has changed, or the file of tables where the program does not have it; says which."""
        found = changed(self._sources, self._watch.marks())
        if isinstance(state, Ended):
            found += changed(self._tables, marks_of(self._table_files()))
        if found:
            say(f"changed: {', '.join(clear(it.name) for it in found)}")
        return bool(found)
