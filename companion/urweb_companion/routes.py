"""`routes P`: the pages of a project, with methods, paths, fields of forms and places.

Functions and the types of their parameters are read from the heads in the sources; which of them are pages, and what they answer, the program
says: each is asked for, over tables in memory and with one unit to spend."""
import argparse
import sys
from collections.abc import Sequence
from dataclasses import dataclass
from itertools import product

from urweb_companion.declared import modules
from urweb_companion.display import escaped
from urweb_companion.explain import of_run
from urweb_companion.heads import Head, Parameter, heads
from urweb_companion.program import Answer, run
from urweb_companion.project import modules_of
from urweb_companion.requests import Response, replayed

SEGMENTS = {"int": ["1"], "bool": ["True"], "string": ["x"], "unit": [""]}
# A type that is a name for another one may be any of these.
ANY = ["1", "True", "x", ""]
MOST_TRIES = 64


@dataclass(frozen=True)
class Route:
    """A page and a method that it answers."""

    method: str
    path: str
    fields: str
    place: str


def main(words: Sequence[str]) -> int:
    parser = argparse.ArgumentParser(prog="urweb routes", description="Prints the pages of a project: methods, paths, fields of their forms, places.")
    parser.add_argument("project", metavar="P", help="the project file; .urp is added where it does not end with it")
    project: str = parser.parse_args(words).project
    checked = run(["check", "--", project])
    if checked.status != 0:
        return refused(checked)
    found = routes(project)
    if isinstance(found, Answer):
        return refused(found)
    sys.stdout.write(table([(it.method, it.path, it.fields, it.place) for it in found]))
    count, known = int(checked.text.split()[1]), len({it.path for it in found})
    if count != known:
        print(f"urweb: the project has {count} routes, and {known} of them are found by the heads of its functions", file=sys.stderr)
    return 0


def refused(answer: Answer) -> int:
    """Prints what the program printed, and its explanation; returns its status."""
    sys.stdout.write(answer.text)
    sys.stdout.flush()
    explanation = of_run(answer)
    sys.stderr.write(explanation.text() if explanation else "")
    return answer.status


def table(rows: Sequence[Sequence[str]]) -> str:
    """Returns rows in columns, as wide as what stands in them, what would steer a terminal escaped."""
    shown = [[escaped(it) for it in row] for row in rows]
    widths = [max(len(row[at]) for row in shown) for at in range(len(shown[0]))] if shown else []
    return "".join("  ".join(it.ljust(width) for it, width in zip(row, widths)).rstrip() + "\n" for row in shown)


def routes(project: str) -> list[Route] | Answer:
    """Returns the routes in order of modules and places, or the run that failed."""
    named = {name: at for at, name in enumerate(modules_of(project))}
    known = sorted((it for it in modules(project) if it.source.path.stem in named), key=lambda it: named[it.source.path.stem])
    candidates = [(head, path) for module in known for head in heads(module) if not head.constructors for path in paths(head)]
    asked = [(method, path) for _, path in candidates for method in ("HEAD", "POST")]
    answers = replayed(project, asked, steps=1)
    if isinstance(answers, Answer):
        return answers
    pairs = zip(candidates, zip(answers[::2], answers[1::2]))
    found: dict[tuple[str, str, str], Route] = {}
    for (head, _), (by_head, by_post) in pairs:
        for route in _of_answers(head, by_head, by_post):
            found.setdefault((route.method, head.module.name, head.name), route)
    return list(found.values())


def _of_answers(head: Head, by_head: Response, by_post: Response) -> list[Route]:
    """Returns the routes of a function that two answers show."""
    found = []
    if by_head.status not in {404, 405}:
        found.append(Route("GET", shown_path(head, head.parameters), "", place(head)))
    if by_post.status not in {404, 405}:
        found.append(Route("POST", shown_path(head, head.parameters[:-1]), fields(head), place(head)))
    return found


def paths(head: Head) -> list[str]:
    """Returns the paths by which a page of this head may be called; the last parameter may be the form's."""
    found = {_path(head, segments) for segments in _segments(head.parameters)}
    if head.parameters:
        found |= {_path(head, segments) for segments in _segments(head.parameters[:-1])}
    return sorted(found)


def _segments(parameters: Sequence[Parameter]) -> list[tuple[str, ...]]:
    choices = [[] if it.fields else SEGMENTS.get(it.type, ANY) for it in parameters]
    return list(product(*choices))[:MOST_TRIES]


def _path(head: Head, segments: Sequence[str]) -> str:
    return "/".join(["", head.module.name, head.name, *(it for it in segments if it)])


def shown_path(head: Head, parameters: Sequence[Parameter]) -> str:
    """Returns the path with the names and types of its arguments."""
    arguments = [f"{{{it.name} : {it.type}}}" for it in parameters if it.type != "unit"]
    return "/".join(["", head.module.name, head.name, *arguments])


def fields(head: Head) -> str:
    """Returns the fields that the form of a page sends, a checkbox in brackets since it may be missing."""
    last = head.parameters[-1]
    if not last.fields:
        return "" if last.type == "unit" else f"those of {last.type}"
    return " ".join(f"[{name}]" if kind == "bool" else name for name, kind in sorted(last.fields))


def place(head: Head) -> str:
    where = head.module.source.place(head.token.start)
    return f"{head.module.source.path}:{where.line}:{where.column}"
