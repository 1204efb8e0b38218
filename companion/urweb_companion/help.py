"""`help [WORD]`: what words there are, what one of them does, or the section of a refusal."""
import argparse
import sys
from collections.abc import Sequence

from urweb_companion.commands import OF_COMPANION, OF_PROGRAM, PLACES, near
from urweb_companion.refusals import section, sections
from urweb_companion.words import MODULES, run_word

READ_ON = "docs/GUIDE.md leads to an application in steps, docs/LANGUAGE.md has the language, docs/REFUSALS.md the refusals."


def main(words: Sequence[str]) -> int:
    parser = argparse.ArgumentParser(prog="urweb help", description="Lists the words, or says what one of them does, or what to do at a refusal.")
    parser.add_argument("word", metavar="WORD", nargs="?", help="a word, or the code of a refusal, as E13")
    word: str | None = parser.parse_args(words).word
    if word is None:
        sys.stdout.write(all_words())
        return 0
    if word.upper() in sections():
        print(section(word.upper()))
        return 0
    if word in OF_PROGRAM:
        sys.stdout.write(of_command(word))
        return 0
    if word in MODULES:
        return run_word(word, ["--help"])
    print(f"urweb: no such word: {word}{near(word, [*OF_PROGRAM, *OF_COMPANION])}", file=sys.stderr)
    return 1


def all_words() -> str:
    """Returns a line for each word."""
    lines = ["usage: urweb WORD ..", "", "The program:"]
    lines += [f"  {it.form:<18}{it.does}" for it in OF_PROGRAM.values()]
    lines += ["", "Beside it:"]
    lines += [f"  {name:<18}{does}" for name, does in OF_COMPANION.items()]
    return "\n".join([*lines, "", f"P is a project: a file NAME.urp. {READ_ON}", ""])


def of_command(word: str) -> str:
    """Returns how a command of the program is written, and its options."""
    command = OF_PROGRAM[word]
    lines = [f"usage: urweb {command.form}{' [--option value ..]' if command.options else ''}", "", f"{command.does[0].upper()}{command.does[1:]}."]
    if word == "sites":
        lines.append(f"{PLACES}.")
    lines += ["", *(f"  --{name:<14}{does}" for name, does in command.options.items())] if command.options else []
    return "\n".join([*lines, ""])
