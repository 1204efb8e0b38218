"""What is said on standard error behind a run of the program that did not end well: the refusal explained, or a line of cause."""
import os
import sys
from collections.abc import Sequence
from pathlib import Path

from urweb_companion import causes
from urweb_companion.commands import taken_apart
from urweb_companion.explain import of_run
from urweb_companion.program import Status, run
from urweb_companion.reach import unreached


def has_colours() -> bool:
    """Whether standard error is a terminal that is to have colours."""
    return sys.stderr.isatty() and not os.environ.get("NO_COLOR") and os.environ.get("TERM", "dumb") != "dumb"


def explained(words: Sequence[str]) -> str:
    """Returns the explanation of the refusal that a run with these words ended with, by asking the program once more."""
    line = taken_apart(words[1:])
    explanation = of_run(run(["check", "--", *line.words[:1]])) if line.words else None
    return explanation.text(has_colours()) if explanation else ""


def said(status: int, words: Sequence[str]) -> str:
    """Returns what is said of a run with these words that ended with this status."""
    if status == Status.OK:
        return unreached(Path(taken_apart(words[1:]).words[0]))
    if status == Status.REFUSED:
        return explained(words)
    cause = causes.of_status(status, words)
    return f"urweb: {cause}\n" if cause else ""


def main(words: Sequence[str]) -> int:
    """Says what is to be said of a run: the status comes first, then its words."""
    sys.stderr.write(said(int(words[0]), words[1:]))
    return 0
