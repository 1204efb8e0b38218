"""Files of tests: lines that ask and lines that say what must come."""
import re
import shlex
from collections.abc import Callable, Iterator
from dataclasses import dataclass
from pathlib import Path

from urweb_companion.clear import clear
from urweb_companion.layout import Refused


@dataclass(frozen=True)
class Ask:
    """A request with the fields of its form, none where it has no form."""

    method: str
    path: str
    fields: tuple[tuple[str, str], ...]

    def __str__(self) -> str:
        return f"{self.method} {self.path}"


@dataclass(frozen=True)
class Is:
    """The status of the last answer."""

    status: int

    def __str__(self) -> str:
        return f"is {self.status}"


@dataclass(frozen=True)
class Has:
    """A text that stands in the last page, or that must not."""

    text: str
    must: bool

    def __str__(self) -> str:
        return f"{'has' if self.must else 'not'} {self.text}"


@dataclass(frozen=True)
class Keep:
    """Cookies are sent back from here on, those of the last answer too."""


What = Ask | Is | Has | Keep


@dataclass(frozen=True)
class Step:
    """What a line says, with its number."""

    number: int
    what: What


@dataclass(frozen=True)
class Script:
    """A file of tests."""

    path: Path
    steps: list[Step]


def read(path: Path) -> Script:
    """Returns what a file says; Refused has the first line that is none."""
    try:
        text = path.read_text(encoding="utf-8")
    except OSError as why:
        raise Refused(f"{path} cannot be read: {why.strerror}") from None
    except UnicodeDecodeError:
        raise Refused(f"{path} is not UTF-8") from None
    return Script(path, list(_steps(path, text)))


def _steps(path: Path, text: str) -> Iterator[Step]:
    is_asked = False
    for number, line in enumerate(text.split("\n"), 1):
        line = line.strip()
        if not line or line.startswith("#"):
            continue
        try:
            what = what_of(line)
        except ValueError as why:
            raise Refused(f"{path}:{number}: {why}") from None
        if isinstance(what, Is | Has) and not is_asked:
            raise Refused(f"{path}:{number}: nothing was asked before `{clear(line)}`")
        is_asked = is_asked or isinstance(what, Ask)
        yield Step(number, what)


def what_of(line: str) -> What:
    """Returns what a line says; a ValueError says what is wrong with it."""
    word, _, rest = line.partition(" ")
    if re.fullmatch("[A-Z]+", word):
        return _ask(word, rest)
    if word not in WORDS:
        raise ValueError(f"`{clear(word)}` is neither a method in capitals nor one of {', '.join(WORDS)}")
    return WORDS[word](rest.strip())


def _ask(method: str, rest: str) -> Ask:
    path, *fields = shlex.split(rest) or [""]
    if not path.startswith("/"):
        raise ValueError(f"behind {method} stands a path, which begins with `/`")
    if fields and method != "POST":
        raise ValueError(f"{method} has no form: fields stand behind POST alone")
    return Ask(method, path, tuple(map(_field, fields)))


def _field(word: str) -> tuple[str, str]:
    name, equal, value = word.partition("=")
    if not equal:
        raise ValueError(f"`{clear(word)}` is no field: one is NAME=VALUE, in quotes where it has blanks")
    return name, value


def _is(rest: str) -> Is:
    if not re.fullmatch("[1-5][0-9][0-9]", rest):
        raise ValueError("behind `is` stands a status of three digits")
    return Is(int(rest))


def _has(rest: str) -> Has:
    if not rest:
        raise ValueError("behind `has` stands a text")
    return Has(rest, True)


def _not(rest: str) -> Has:
    if not rest:
        raise ValueError("behind `not` stands a text")
    return Has(rest, False)


def _keep(rest: str) -> Keep:
    if rest:
        raise ValueError("behind `keep` stands nothing")
    return Keep()


WORDS: dict[str, Callable[[str], What]] = {"is": _is, "has": _has, "not": _not, "keep": _keep}
