"""The page that `/` leads to while one writes: the first one that the program answers, in the order of the signature or else of the source."""
from pathlib import Path

from urweb_companion.declared import Module
from urweb_companion.heads import Head, heads
from urweb_companion.messages import ask
from urweb_companion.project import Source, folder_of, main_module
from urweb_companion.routes import paths

SECONDS = 5.0


def first_page(project: str, port: int) -> str | None:
    """Returns the path of a page of the main module, one without arguments before one with some."""
    found = [path for head in _heads(folder_of(project) / main_module(project)) for path in paths(head)]
    return next((path for path in sorted(found, key=_has_arguments) if _is_page(port, path)), None)


def _has_arguments(path: str) -> bool:
    return path.count("/") > 2


def _heads(module: Path) -> list[Head]:
    """Returns the heads of functions that may be pages; the program says which are."""
    entries = [it.name for it in _module(module.with_name(f"{module.name}.urs")).declared]
    found = [it for it in heads(_module(module.with_name(f"{module.name}.ur"))) if not it.constructors]
    return sorted(found, key=lambda it: entries.index(it.name) if it.name in entries else len(entries))


def _module(path: Path) -> Module:
    """Returns a module's file, an empty one where it is not there."""
    try:
        return Module(Source.read(path))
    except OSError:
        return Module(Source(path, b""))


def _is_page(port: int, path: str) -> bool:
    """Whether the program answers a request for the path; one that reads saves nothing."""
    request = f"HEAD {path} HTTP/1.1\r\nHost: localhost\r\nConnection: close\r\n\r\n".encode()
    try:
        return ask(port, request, SECONDS).status not in (0, 404, 405)
    except OSError:
        return False
