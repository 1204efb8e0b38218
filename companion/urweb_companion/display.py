"""Text of a file for a terminal: nothing that steers it gets through, and carets stand under what they mean."""
import unicodedata

TAB = "    "
WIDEST = 150
# What turns the direction of a line around or joins letters without being seen.
HIDDEN = frozenset({"Cc", "Cf", "Cs", "Co", "Cn", "Zl", "Zp"})


def shown(letter: str) -> str:
    """Returns how a letter is shown: itself, or its number where it has no shape of its own."""
    if letter == "\t":
        return TAB
    if unicodedata.category(letter) in HIDDEN:
        number = ord(letter)
        return f"\\x{number:02x}" if number < 0x100 else f"\\u{number:04x}" if number < 0x10000 else f"\\U{number:08x}"
    return letter


def escaped(text: str) -> str:
    return "".join(shown(it) for it in text)


def width(text: str) -> int:
    """Returns how many columns of a terminal a text takes, as it is shown."""
    return sum(0 if unicodedata.combining(it) else 2 if unicodedata.east_asian_width(it) in "WF" else 1 for it in escaped(text))


def cut(line: str, start: int, end: int) -> tuple[str, int, int]:
    """Cuts a long line to what stands around a part of it, and returns the part's place in the rest."""
    if len(line) <= WIDEST:
        return line, start, end
    begin = max(0, min(start - WIDEST // 3, len(line) - WIDEST))
    stop = begin + WIDEST
    end = max(start, min(end, stop))
    front, back = ("..", "..") if stop < len(line) else ("..", "")
    front = front if begin > 0 else ""
    return front + line[begin:stop] + back, start - begin + len(front), end - begin + len(front)


def under(line: str, start: int, end: int) -> tuple[str, str]:
    """Returns a line as it is shown, and the line of carets under its letters from start to end, one at least."""
    line, start, end = cut(line, start, end)
    blanks = " " * width(line[:start])
    return escaped(line), blanks + "^" * max(1, width(line[start:end]))
