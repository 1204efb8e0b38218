"""`test`: requests from files, and what must come, each file over fresh tables in memory."""
import argparse
import html
import http.client
import sys
from collections.abc import Iterator, Sequence
from dataclasses import dataclass
from pathlib import Path

from urweb_companion.attach import check
from urweb_companion.browsing import Browser, Shown
from urweb_companion.child import Child
from urweb_companion.clear import clear
from urweb_companion.layout import Refused
from urweb_companion.program import NoProgram
from urweb_companion.scripts import Ask, Has, Is, Keep, Script, Step, read

DESCRIPTION = """Runs files of tests, each over fresh tables in memory. A file has a line for each thing:
  GET /M/list/ann             asks (HEAD and other methods too)
  POST /M/add/ann Body='x y'  posts a form, its fields quoted as a shell does
  is 200                      the status of the last answer
  has TEXT, not TEXT          whether the last page has the text, as it stands in the page
  keep                        cookies are sent back from here on, those of the last answer too
  # ..                        a comment
It prints what fails, with its file and line, and how many lines passed and failed. The status is 0 where none failed, 1 where one did, and 2 where
nothing was run."""

SECONDS_TO_START = 300.0
SECONDS_TO_ANSWER = 60.0

# The lines of a page that are shown where a text is not as it must be.
MOST_LINES = 12
MOST_SIGNS = 150


@dataclass
class Counts:
    """How many lines passed and failed."""

    passed: int = 0
    failed: int = 0


def main(words: Sequence[str]) -> int:
    parsed = _parser().parse_args(words)
    counts = Counts()
    try:
        scripts = [read(Path(name)) for name in parsed.files]
        check(parsed.project)
        for script in scripts:
            _run(parsed.project, script, counts)
    except (Refused, NoProgram) as why:
        print(f"urweb test: {why}", file=sys.stderr)
        return 2
    print(f"{counts.passed} passed, {counts.failed} failed")
    return 1 if counts.failed else 0


def _parser() -> argparse.ArgumentParser:
    form = argparse.RawDescriptionHelpFormatter
    parser = argparse.ArgumentParser(prog="urweb test", description=DESCRIPTION, formatter_class=form)
    parser.add_argument("project", metavar="P", help="the project")
    parser.add_argument("files", metavar="FILE", nargs="+", help="a file of tests")
    return parser


def _run(project: str, script: Script, counts: Counts) -> None:
    """Runs a file over fresh tables, and prints what fails."""
    with Child(project) as child:
        if not child.settled(SECONDS_TO_START):
            raise Refused(f"{project} is not served: {child.said().decode('utf-8', 'replace').strip() or 'it does not answer'}")
        browser = Browser(child.port, SECONDS_TO_ANSWER)
        for step, failure in _outcomes(browser, script.steps):
            if failure is None:
                counts.passed += 1
            else:
                counts.failed += 1
                print(f"{script.path}:{step.number}: {failure}")


def _outcomes(browser: Browser, steps: list[Step]) -> Iterator[tuple[Step, str | None]]:
    """Returns for each line that says what must come, and for each request without an answer, what is wrong, or nothing."""
    asked, shown = Ask("", "", ()), None
    for step in steps:
        match step.what:
            case Ask() as asked:
                shown = _asked(browser, asked)
                if shown is None:
                    yield step, f"{asked}: there is no answer"
            case Keep():
                browser.keep()
            case Is() | Has() as wanted:
                yield step, failure_of(wanted, asked, shown)


def _asked(browser: Browser, asked: Ask) -> Shown | None:
    try:
        return browser.ask(asked.method, asked.path, asked.fields)
    except (OSError, http.client.HTTPException):
        return None


def failure_of(wanted: Is | Has, asked: Ask, shown: Shown | None) -> str | None:
    """Returns what is wrong with an answer, or nothing."""
    if shown is None:
        return f"{clear(str(wanted), MOST_SIGNS)}: {asked} has no answer"
    if isinstance(wanted, Is):
        return None if shown.status == wanted.status else f"{wanted}: {asked} gives {shown.status}{_page(shown)}"
    if (wanted.text in shown.page) == wanted.must:
        return None
    return f"{clear(str(wanted), MOST_SIGNS)}: {asked} gives {shown.status}{_hint(wanted, shown)}{_page(shown)}"


def _hint(wanted: Has, shown: Shown) -> str:
    """Says where only the spelling of markup differs."""
    escaped = html.escape(wanted.text, quote=False)
    return f"; the page spells it {clear(escaped, MOST_SIGNS)}" if wanted.must and escaped != wanted.text and escaped in shown.page else ""


def _page(shown: Shown) -> str:
    """Returns the first lines of a page, each behind a mark."""
    lines = [line for line in shown.page.split("\n") if line.strip()]
    more = ["  | .."] if len(lines) > MOST_LINES else []
    return "".join(f"\n{it}" for it in [*(f"  | {clear(line, MOST_SIGNS)}" for line in lines[:MOST_LINES]), *more])
