"""The heads of functions as their tokens show them: names, parameters and results with the texts of their types."""
from dataclasses import dataclass

from urweb_companion.declared import Module
from urweb_companion.tokens import Token


@dataclass(frozen=True)
class Parameter:
    """A parameter: its name, `_` and the empty one among them, and the text of its type."""

    name: str
    type: str
    fields: tuple[tuple[str, str], ...] = ()


@dataclass(frozen=True)
class Head:
    """A function's head: the module's name for programs, its own, whether it has constructor parameters, its parameters and the text of its result."""

    module: Module
    name: str
    token: Token
    constructors: bool
    parameters: tuple[Parameter, ...]
    result: str


def heads(module: Module) -> list[Head]:
    """Returns the heads that a module seems to have; what has no `:` and `=` is left out."""
    found = []
    for it in module.declared:
        head = _head(module, it.at) if it.sort == "fun" else None
        if head:
            found.append(head)
    return found


def _head(module: Module, at: int) -> Head | None:
    tokens, name = module.tokens, module.tokens[at]
    at, constructors, parameters = at + 1, False, []
    while at < len(tokens) and tokens[at].is_sign("(", "["):
        end = _end(tokens, at)
        if tokens[at].is_sign("["):
            constructors = True
        else:
            parameters.append(_parameter(module, at, end))
        at = end + 1
    if at >= len(tokens) or not tokens[at].is_sign(":"):
        return None
    last = at + 1
    while last < len(tokens) and not tokens[last].is_sign("="):
        last = _end(tokens, last) + 1 if tokens[last].is_sign("(", "[", "{") else last + 1
    return Head(module, name.text, name, constructors, tuple(parameters), _text(tokens[at + 1:last]))


def _end(tokens: list[Token], at: int) -> int:
    """Returns where the bracket there is ended, or the last token."""
    depth = 0
    for index in range(at, len(tokens)):
        depth += tokens[index].is_sign("(", "[", "{") - tokens[index].is_sign(")", "]", "}")
        if depth == 0:
            return index
    return len(tokens) - 1


def _parameter(module: Module, at: int, end: int) -> Parameter:
    tokens = module.tokens
    if end == at + 1:
        return Parameter("", "unit")
    type_at = at + 3
    fields = module.fields_at(type_at)
    return Parameter(tokens[at + 1].text, module.named(_text(tokens[type_at:end])), tuple(fields.items()))


def _text(tokens: list[Token]) -> str:
    return " ".join(it.text for it in tokens)
