"""Why no page of a project can be reached."""
from pathlib import Path

from urweb_companion.declared import Module, modules
from urweb_companion.heads import Head, heads
from urweb_companion.program import run
from urweb_companion.project import main_module, project_file

NONE = "ok 0 routes\n"
OF_PATH = {"int", "string", "bool", "unit"}


def is_unreached(project: str) -> bool:
    """Whether the program finds no route in the project."""
    answer = run(["check", "--", project])
    return answer.status == 0 and answer.text == NONE


def unreached(project: Path) -> str:
    """Returns the lines on why no page can be reached, nothing where one can."""
    if not is_unreached(str(project)):
        return ""
    return f"urweb: no page can be reached, so each request is answered 404: {why(project)}\n"


def why(project: Path) -> str:
    name = main_module(str(project))
    module = next((it for it in modules(str(project)) if it.source.path.stem == name), None)
    signature = project_file(str(project)).parent / f"{name}.urs"
    if signature.exists():
        return f"the signature {signature} names no page"
    pages = [it for it in heads(module) if it.result in {"transaction page", "transaction ( page )"}] if module else []
    if not pages:
        return f"the main module {name} has no function with the result `transaction page`"
    return f"{pages[0].name} {_fault(pages[0])}"


def _fault(head: Head) -> str:
    if head.constructors:
        return "has a constructor parameter, and a page function has none"
    wrong = [it for it in head.parameters if it.type not in OF_PATH]
    return f"has the parameter {wrong[0].name} : {wrong[0].type}, and those of an entry are int, string, bool or unit" if wrong else "is no entry"


def all_heads(found: list[Module]) -> list[Head]:
    """Returns the heads of the functions of modules, in their order."""
    return [head for module in found for head in heads(module)]
