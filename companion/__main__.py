"""Runs a word of the companion: `python3 companion WORD ..`, as `./urweb WORD ..` does."""
import sys

from urweb_companion.words import main

if __name__ == "__main__":
    sys.exit(main(sys.argv[1:]))
