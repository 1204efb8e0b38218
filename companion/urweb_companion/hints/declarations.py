"""Hints for declarations that no rule spells: heads of functions, values without a type, tables and their keys, and what the language leaves out."""
from urweb_companion.hints.statements import WORDS
from urweb_companion.scene import Scene
from urweb_companion.tokens import Token

DECLARES = frozenset({"fun", "and", "val", "table", "sequence", "cookie", "type", "con", "datatype"})
NOT_THERE = {
    "structure": "there are no structures: a module is a file, and the project file names it", "signature": "there are no signatures but the main module's file NAME.urs",
    "functor": "there are no functors: a function with constructor parameters does it", "open": "nothing is opened: a name of another module is written M.x",
    "include": "nothing is included: a name of another module is written M.x", "style": "a page has no styles of its own", "class": "there are no classes",
    "view": "there are no views: write a function that asks", "task": "there are no tasks", "policy": "there are no policies", "ffi": "there is nothing foreign",
    "constraint": "a constraint of a table is written behind it: CONSTRAINT N UNIQUE A", "index": "there is no index to declare", "export": "entries are named by the signature NAME.urs",
    "import": "nothing is imported: a name of another module is written M.x", "module": "a module is a file, and the project file names it", "def": "a function is declared by fun",
    "function": "a function is declared by fun", "let": "a value is declared by val a : t = ..", "const": "a value is declared by val a : t = ..", "var": "a value is declared by val a : t = ..",
    "exception": "there are no exceptions: error <xml>..</xml> ends a request", "infix": "there are no operators of one's own", "SELECT": "a query stands in a function",
}


def look(scene: Scene) -> str | None:
    """Returns a hint where the place is in a declaration's head, or where a declaration begins."""
    head = _head(scene)
    constructor = _constructor(scene)
    if constructor:
        return constructor
    if scene.text(-1) == ";" and scene.text(0) in {"", *DECLARES} and not _is_in_let(scene):
        return "no `;` stands behind a declaration or behind the last expression of a function: take it out"
    if head is None or (_is_whole(scene, head) and scene.text(0) not in DECLARES):
        hint = _begins(scene)
        if hint:
            return hint
    if head is None:
        return None
    if head.text in {"fun", "and"}:
        return _function(scene, head)
    if head.text == "val":
        return _value(scene, head)
    if head.text == "table":
        return _table(scene, head)
    if head.text in {"cookie", "sequence", "datatype", "type", "con"}:
        return _other(scene, head)
    return None


def _constructor(scene: Scene) -> str | None:
    """Returns a hint where the place is among the constructors of a datatype."""
    last = next((it.text for it in reversed(scene.tokens[:scene.at]) if it.is_word(*DECLARES)), "")
    here, before = scene.text(0), scene.text(-1)
    if last != "datatype":
        return None
    if before in {"=", "|"} and here[:1].islower():
        return f"a constructor begins with a capital: {here[:1].upper()}{here[1:]}"
    return "behind `of` stands a type" if before == "of" else None


def _is_in_let(scene: Scene) -> bool:
    return any(it.text == "let" for it in scene.open)


def _head(scene: Scene) -> Token | None:
    """Returns the word that begins the declaration around the place, where no `=` of its own stands between."""
    depth = 0
    for at in range(scene.at - 1, -1, -1):
        token = scene.tokens[at]
        if token.is_word(*DECLARES):
            return token if depth <= 0 else None
        if token.is_sign(")", "]", "}"):
            depth += 1
        elif token.is_sign("(", "[", "{"):
            depth -= 1
        elif depth <= 0 and token.is_sign("="):
            return None
    return None


def _is_whole(scene: Scene, head: Token) -> bool:
    return head.text in {"table", "sequence", "cookie"} and scene.token(-1) is not head


def _begins(scene: Scene) -> str | None:
    here = scene.text(0)
    starts_line = not scene.line_before.strip()
    if here in NOT_THERE and starts_line:
        return NOT_THERE[here]
    if starts_line and (here, scene.text(1)) == ("/", "/"):
        return "a comment is written (* .. *)"
    if starts_line and here in {"--", "#", "/"}:
        return "a comment is written (* .. *)"
    return None


def _function(scene: Scene, head: Token) -> str | None:
    here, before, at = scene.text(0), scene.text(-1), scene.tokens.index(head)
    name = scene.tokens[at + 1].text if at + 1 < len(scene.tokens) else "f"
    if scene.at == at + 1:
        return f"a function's name begins with a small letter: {here[:1].lower()}{here[1:]}" if here[:1].isupper() else f"`{here}` is a word of the language and names no function"
    opened = scene.open[-1] if scene.open and scene.open[-1].start > head.start else None
    if opened and opened.text == "{" and _has_result(scene, scene.tokens.index(opened) - 1, at) and scene.here and not scene.here.is_name:
        return f"the body of a function stands behind =: fun {name} (..) : int = .."
    if opened is None and here in {"=", "{", "=>"} and not _has_result(scene, scene.at, at):
        return f"a function's result has a type: fun {name} (..) : transaction page = .." if before in {")", "]"} else f"a function has parameters, fun {name} () : t = .., and a value is declared by val"
    if scene.here and scene.here.is_name and (scene.at == at + 2 or before in {")", "]"}):
        return f"a parameter has brackets and a type: ({here} : int)"
    if here in {")", ","} and scene.token(-1) and scene.text(-2) in {"(", ","}:
        return "each parameter has brackets and a type of its own: (n : int) (s : string)" if here == "," else f"a parameter has a type: ({before} : int)"
    if here == "," and scene.open and scene.open[-1].text == "(":
        return "each parameter has brackets of its own: (n : int) (s : string)"
    return _type(scene)


def _has_result(scene: Scene, end: int, at: int) -> bool:
    """Whether a `:` outside of brackets stands between the head and that token."""
    depth = 0
    for token in scene.tokens[at:end + 1]:
        depth += token.is_sign("(", "[", "{") - token.is_sign(")", "]", "}")
        if depth == 0 and token.is_sign(":"):
            return True
    return False


def _type(scene: Scene) -> str | None:
    """Returns a hint for what stands in a type."""
    here, before = scene.text(0), scene.text(-1)
    opened = scene.open[-1].text if scene.open else ""
    if here == "*":
        return "there are no pairs: a record has its fields, {A : int, B : string}"
    if here == "=" and opened == "{":
        return "a field of a record's type is written {A : int}"
    if here == "'" or (scene.here and scene.here.kind == "sqltext"):
        return "a type that is not fixed is a parameter in brackets: [t :: Type]"
    if opened == "{" and scene.here and scene.here.is_name and before[:1].isupper():
        return f"the type of a field stands behind a colon: {{{before} : {here}}}"
    if here == "}" and before == ",":
        return "no comma stands before the closing brace"
    if here == "::" and opened == "(":
        return "a parameter of a kind stands in square brackets: [t :: Type]"
    return None


def _value(scene: Scene, head: Token) -> str | None:
    at = scene.tokens.index(head)
    name = scene.tokens[at + 1].text if at + 1 < len(scene.tokens) else "a"
    if scene.text(0) == "=" and scene.at == at + 2:
        return f"a value has a type: val {name} : int = .."
    if scene.at == at + 2 and scene.text(0) in {"(", "{"} or (scene.at == at + 2 and scene.here and scene.here.is_name):
        return f"what has parameters is a function: fun {name} (n : int) : int = .."
    return _type(scene)


def _table(scene: Scene, head: Token) -> str | None:
    here, before = scene.text(0), scene.text(-1)
    if before in {"{", ","} and here in {it.upper() for it in WORDS} and scene.open and scene.open[-1].text == "{":
        return f"no column is named by a word of SQL in capitals: write {here.capitalize()}"
    if here == "," and before == "}":
        return "no comma stands before PRIMARY KEY or the first CONSTRAINT"
    if here == "PRIMARY" and before != "}":
        return "PRIMARY KEY comes first and once, and constraints behind it, after a comma"
    if here[:1].islower() and before in {"KEY", "UNIQUE", "(", ","} and here.isidentifier():
        return f"columns begin with a capital: {here[:1].upper()}{here[1:]}"
    if here in {"FOREIGN", "REFERENCES"}:
        return "there are no foreign keys: look for the other row in the function that writes"
    if here == "CHECK":
        return "there is no CHECK: look at the value in the function that writes"
    if here == "UNIQUE":
        return "a constraint has a name: CONSTRAINT N UNIQUE B"
    if here == "CONSTRAINT" and before != ",":
        return "a comma stands between a key and a CONSTRAINT"
    if here in {"NOT", "NULL", "DEFAULT", "AUTO_INCREMENT"} or before == "DEFAULT":
        return "each column has a value, and none by itself"
    if here == "(" and scene.token(-2) is head:
        return "a table is written table t : {A : int, B : string}"
    return _type(scene)


def _other(scene: Scene, head: Token) -> str | None:
    here, name = scene.text(0), scene.text(-1)
    follows = scene.token(-2) is head
    if head.text == "cookie" and follows and here in {"", "=", *DECLARES}:
        return f"a cookie has a type: cookie {name} : string"
    if head.text == "sequence" and follows and here in {":", "="}:
        return f"a sequence has a name alone: sequence {name}"
    if head.text == "con" and follows and here == "=":
        return f"a con has a kind: con {name} :: Type = .."
    if head.text == "type" and follows and scene.here and scene.here.is_name:
        return f"what has a parameter is a con: con {name} :: Type -> Type = fn {here} :: Type => .."
    return _type(scene)
