"""The companion's own words, and the module that answers each."""
import importlib
import os
import sys
from collections.abc import Sequence

from urweb_companion.program import NoProgram

NOT_RUN = 126
MODULES = {
    "dev": "dev",
    "help": "help",
    "lsp": "lsp",
    "migrate": "migrate",
    "new": "new",
    "routes": "routes",
    "seed": "seed",
    "sites": "places",
    "tables": "tables",
    "test": "testing",
    "version": "version",
}


# What `./urweb` asks behind a run of the program; no word for users.
ENDED = "--ended"


def run_word(word: str, words: Sequence[str]) -> int:
    """Runs a word's module with the words behind it."""
    module = importlib.import_module(f"urweb_companion.{MODULES[word]}")
    status: int = module.main(list(words))
    return status


def main(words: Sequence[str]) -> int:
    """Runs the word that comes first with the words behind it."""
    if words and words[0] == ENDED:
        ended = importlib.import_module("urweb_companion.ended")
        status: int = ended.main(list(words[1:]))
        return status
    if not words or words[0] not in MODULES:
        print(f"urweb: the words are {', '.join(sorted(MODULES))}", file=sys.stderr)
        return 1
    try:
        status = run_word(words[0], words[1:])
        sys.stdout.flush()
    except BrokenPipeError:
        # Who reads the output has gone; nothing is left to say.
        os.dup2(os.open(os.devnull, os.O_WRONLY), sys.stdout.fileno())
        return 1
    except NoProgram as fault:
        print(fault, file=sys.stderr)
        return NOT_RUN
    except ModuleNotFoundError as fault:
        if not (fault.name or "").startswith("urweb_companion."):
            raise
        print(f"urweb: {words[0]} is not there", file=sys.stderr)
        return 1
    return status
