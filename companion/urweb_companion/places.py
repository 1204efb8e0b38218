"""`sites P --places`: what `sites` prints, with the place of each query and change behind its line.

Statements are numbered in order of modules and place. They are found by their first words in the sources; where their numbers or their values
of the program are not those that the program prints, no place is told."""
import re
import sys
from collections.abc import Sequence
from dataclasses import dataclass

from urweb_companion.declared import Module, modules
from urweb_companion.display import escaped
from urweb_companion.program import run
from urweb_companion.project import modules_of
from urweb_companion.routes import refused
from urweb_companion.tokens import STATEMENTS

CALLS = {"dml": STATEMENTS - {"SELECT"}, "queryX": {"SELECT"}, "queryL": {"SELECT"}, "oneRow": {"SELECT"}, "oneOrNoRows": {"SELECT"}}
LINE = re.compile(r"(site|update) (\d+) (?:keys|args) (\d+)")
LONGEST = 60


@dataclass(frozen=True)
class Statement:
    """A statement: whether it is a query, its place, how many values of the program it has, and its text on one line."""

    is_query: bool
    place: str
    values: int
    text: str


def main(words: Sequence[str]) -> int:
    rest = [it for it in words if it != "--places"]
    answer = run(["sites", *rest])
    if answer.status != 0:
        return refused(answer)
    project = next(it for it in rest if it != "--")
    lines = answer.text.splitlines()
    places = placed(lines, statements(project))
    if places is None:
        print("urweb: the statements could not be told apart in the sources, so their places are left out", file=sys.stderr)
    sys.stdout.write("".join(f"{line}{'  ' + places[at] if places and at in places else ''}\n" for at, line in enumerate(lines)))
    return 0


def statements(project: str) -> list[Statement]:
    """Returns the statements in the order in which the program numbers them."""
    known = {it.source.path.stem: it for it in modules(project)}
    return [it for name in modules_of(project) if name in known for it in of_module(known[name])]


def of_module(module: Module) -> list[Statement]:
    found, tokens = [], module.tokens
    for at in range(len(tokens) - 2):
        word, bracket, first = tokens[at:at + 3]
        if word.kind == "word" and first.text in CALLS.get(word.text, ()) and bracket.is_sign("("):
            found.append(_statement(module, at + 1))
    return found


def _statement(module: Module, at: int) -> Statement:
    """Returns the statement in the bracket there."""
    tokens, depth, values, within, last = module.tokens, 0, 0, 0, at
    for last in range(at, len(tokens)):
        depth += tokens[last].is_sign("(", "[", "{") - tokens[last].is_sign(")", "]", "}")
        within = within if depth >= within else 0
        if within == 0 and tokens[last].is_sign("[") and tokens[last - 1].is_sign("{"):
            values, within = values + 1, depth
        if depth == 0:
            break
    first = tokens[at + 1]
    where = module.source.place(first.start)
    text = " ".join(module.source.data[first.start:tokens[last].start].decode("utf-8", "replace").split())
    shown = text if len(text) <= LONGEST else text[:LONGEST - 2] + ".."
    return Statement(first.text == "SELECT", f"{module.source.path}:{where.line}:{where.column}", values, shown)


def placed(lines: Sequence[str], found: Sequence[Statement]) -> dict[int, str] | None:
    """Returns what stands behind lines of `sites`, by their numbers, or none where the statements found are not the program's."""
    queues = {"site": [it for it in found if it.is_query], "update": [it for it in found if not it.is_query]}
    places: dict[int, str] = {}
    numbers = {"site": 0, "update": 0}
    for at, line in enumerate(lines):
        it = LINE.fullmatch(line)
        if it is None:
            continue
        index, values = int(it[2]) - 1, int(it[3])
        if index >= len(queues[it[1]]) or queues[it[1]][index].values != values:
            return None
        numbers[it[1]] += 1
        places[at] = escaped(f"{queues[it[1]][index].place}  {queues[it[1]][index].text}")
    return places if all(len(queues[it]) == numbers[it] for it in queues) else None
