"""The words of `./urweb`: the program's commands and the companion's own, each with its form and what it does; and what words of a line are."""
from collections.abc import Sequence
from dataclasses import dataclass
from difflib import get_close_matches


@dataclass(frozen=True)
class Command:
    """A word, how it is written, what it does, and its options with what their values are."""

    name: str
    form: str
    does: str
    options: dict[str, str]
    words: int = 1


DB = {"db": "keeps the tables in this file of SQLite; without it they are in memory"}
COSTS = {"cache": "0 to 16384, the answers of queries that are kept; else 1024", "steps": "1 to 10000000, the units of a request; else 100000"}
OF_PROGRAM = {
    it.name: it
    for it in (
        Command("check", "check P", "compiles a project, and says how many routes it has", {}),
        Command("serve", "serve P --port n", "serves a project on 127.0.0.1",
                {"port": "1 to 65535", **DB, **COSTS, "connections": "1 to 1000000, the most connections; else the greatest"}),
        Command("replay", "replay P", "answers the requests on standard input, on standard output", {**DB, **COSTS}),
        Command("sites", "sites P", "prints the queries and changes, and which answers each change drops", {}),
        Command("load", "load SEED N", "runs N generated requests on the notes", {}, 2),
    )
}
OF_COMPANION = {
    "dev": "serves a project while you write it, and shows refusals in the browser",
    "test": "runs files of requests and of what must come",
    "routes": "prints the pages of a project: methods, paths, fields, places",
    "tables": "prints the tables of a file that --db made",
    "migrate": "makes a file of tables for a changed schema",
    "seed": "puts rows of a CSV file into a table",
    "new": "makes an application of twenty lines to begin with",
    "lsp": "the language server for editors",
    "help": "prints this, or about one word or one refusal: help serve, help E13",
    "version": "says which program is run, and what it was built from",
}
PLACES = "`sites P --places` prints the places of the statements too"


def near(word: str, known: Sequence[str]) -> str:
    """Returns `, is it x?` for the known word that is most like this one, nothing where none is."""
    close = get_close_matches(word.lower(), known, n=1, cutoff=0.5)
    return f", is it {close[0]}?" if close else ""


@dataclass(frozen=True)
class Line:
    """The words behind a command, taken apart: those without a name, and the options with their values, None where it is missing."""

    words: list[str]
    options: list[tuple[str, str | None]]

    def option(self, name: str) -> str | None:
        return next((value for it, value in self.options if it == name), None)


def taken_apart(words: Sequence[str]) -> Line:
    """Takes the words behind a command apart as the program does: `--name value` and `--name=value`, and none behind `--`."""
    plain: list[str] = []
    options: list[tuple[str, str | None]] = []
    rest = list(words)
    while rest:
        word = rest.pop(0)
        if word == "--":
            plain += rest
            break
        if not word.startswith("--"):
            plain.append(word)
        elif "=" in word:
            name, _, value = word[2:].partition("=")
            options.append((name, value))
        else:
            options.append((word[2:], rest.pop(0) if rest else None))
    return Line(plain, options)
