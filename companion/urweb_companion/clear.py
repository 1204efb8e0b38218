"""Texts of tables, words and requests on one line of a terminal, cut where they are long."""
from urweb_companion.display import shown

NAMED = {"\n": "\\n", "\r": "\\r", "\t": "\\t"}


def clear(text: str, most: int = 60) -> str:
    """Returns a text without what would steer a terminal, cut where it is longer than the most."""
    if len(text) <= most and text.isascii() and text.isprintable():
        return text
    line = "".join(NAMED.get(letter) or shown(letter) for letter in text[:most + 1])
    return line if len(line) <= most else line[:most - 2] + ".."
