"""Hints for expressions, patterns and markup that no rule spells."""
import re

from urweb_companion.scene import Scene
from urweb_companion.tokens import KEYWORDS, Token

OPERATORS = frozenset({"+", "-", "*", "/", "%", "^", "++", "--", "&&", "||", "=", "<>", "<", "<=", ">", ">=", "::", "<-", "=>", "->"})
VOID = frozenset({"br", "hr"})
CLOSES = {"(": ")", "[": "]", "{": "}"}
FORMS = {"queryX": "queryX (SELECT ..) (fn r => <xml>..</xml>)", "dml": "dml (INSERT INTO ..)"}


def look(scene: Scene) -> str | None:
    """Returns a hint for the first of these that fits."""
    for guess in (_in_markup, _signs, _brackets, _lets, _cases, _forms, _ends):
        hint = guess(scene)
        if hint:
            return hint
    return None


def _in_markup(scene: Scene) -> str | None:
    here, before = scene.here, scene.text(-1)
    if here is None:
        return None
    if here.kind == "open":
        return _element(scene, here)
    if here.kind == "close":
        return f"no <{here.text[2:]}> is open there"
    opened = scene.open[-1] if scene.open else None
    if before == "#" and here.is_name and here.text[:1].islower():
        return f"a field begins with a capital: {{#{here.text[:1].upper()}{here.text[1:]}}}"
    if opened and opened.kind == "brace" and scene.text(-2).startswith("<") and here.text[:1].isupper():
        return f"a field has its name in braces behind #: {{#{here.text}}}"
    if opened and opened.kind == "open" and before == "=":
        return "an attribute's value is a string between double quotes or code: class=\"a\" or link={f x}"
    if opened and opened.kind == "open" and here.kind in {"end", "closed", "word"}:
        return f"an attribute has a value: {before}=\"..\" or {before}={{..}}"
    return None


def _element(scene: Scene, here: Token) -> str:
    """Returns what is wrong with an element that is not ended by its own tag."""
    name = here.text[1:]
    if name in VOID:
        return f"{name} holds nothing: write <{name}/>"
    close = _closing(scene, here)
    if close is None:
        return f"<{name}> has no </{name}>" + ("" if name not in {"img", "input", "textbox", "checkbox", "submit", "password"} else f": write <{name}/>")
    return f"at {scene.where(close)} stands {close.text}>, and </{name}> must end <{name}> before it" if close.text[2:] != name else f"look into <{name}>"


def _closing(scene: Scene, here: Token) -> Token | None:
    """Returns the tag that ends the element, the first that no element in it begins."""
    stack: list[str] = []
    at = scene.tokens.index(here)
    for index in range(at, len(scene.tokens)):
        token = scene.tokens[index]
        if token.kind == "open":
            stack.append(token.text[1:])
        elif token.kind == "closed" and stack:
            stack.pop()
        elif token.kind == "close":
            if len(stack) <= 1 or token.text[2:] != stack[-1]:
                return token if len(stack) <= 1 or token.text[2:] == stack[0] or token.text[2:] not in stack else None
            stack.pop()
        if not stack and token.kind in {"close", "closed"}:
            return None
        if token.kind == "endxml":
            return None
    return None


def _signs(scene: Scene) -> str | None:
    here, before = scene.text(0), scene.text(-1)
    last, kind = scene.token(-1), scene.here.kind if scene.here else ""
    touches = last is not None and scene.here is not None and last.end == scene.here.start
    if here == "=" and before in {"=", "/"} and touches:
        return "equality is written =" if before == "=" else "`is not equal` is written <>"
    if here == ":" and scene.text(1) == "=":
        return "equality is written =, and a name is given by x <- e; or let val x : int = e in .. end"
    if here == ")" and before == "*" and touches:
        return "*) ends a comment, and none was begun by (*"
    if here == ">" and before == "=":
        return "`at least` is written >="
    if here in {"=", "<>", "<", "<=", ">", ">="} and _compares(scene):
        return "comparisons do not chain: join two of them by &&"
    if here == "." and kind == "sign" or (kind == "int" and before == "." and touches):
        return "there are no numbers with a fraction: int is there" if kind == "int" else None
    if kind == "sqltext":
        return f"a string stands between double quotes: \"{here[1:-1]}\""
    if here == "#" and scene.token(1) and scene.token(1).kind == "string":  # type: ignore[union-attr]
        return "there are no single characters: a string of one is there"
    if here == "~":
        return "a negative number is written -3"
    if here == "/" and before == "/" or (here == "/" and scene.text(1) == "/"):
        return "a comment is written (* .. *)"
    if here == "<-" and _is_behind(scene, "else", "then"):
        return "behind then and else stands one expression: put what runs one after the other in brackets, (x <- e; ..)"
    if here == "->" and _is_behind(scene, "fn"):
        return "a function is written fn (x : int) => e"
    if here == "and":
        return "the and of bools is written &&"
    if here == "=" and _is_statement(scene):
        return "a name is given to what runs by x <- e; and to a value by let val x : int = e in .. end"
    return None


def _compares(scene: Scene) -> bool:
    """Whether a comparison stands before the place in the same expression, with plain operands alone between."""
    for at in range(scene.at - 1, max(-1, scene.at - 6), -1):
        token = scene.tokens[at]
        if token.is_sign("=", "<>", "<", "<=", ">", ">="):
            return at < scene.at - 1 and not (token.is_sign("=") and _is_of_head(scene, at))
        if not (token.is_name or token.kind in {"int", "string"} or token.is_sign(".", "+", "-")):
            return False
    return False


def _is_of_head(scene: Scene, at: int) -> bool:
    """Whether a `=` is that of a declaration: a `:` stands before it."""
    return any(it.is_sign(":") for it in scene.tokens[max(0, at - 4):at])


def _is_behind(scene: Scene, *words: str, distance: int = 0) -> bool:
    """Whether one of these words stands before the place, or so many tokens before it, with no `;`, brace or other keyword between."""
    for at in range(scene.at - distance - 1, -1, -1):
        token = scene.tokens[at]
        if token.is_word(*words):
            return True
        if token.is_sign(";", "{") or (token.kind == "word" and token.text in KEYWORDS):
            return False
    return False


def _is_statement(scene: Scene) -> bool:
    before = scene.token(-2)
    return scene.token(-1) is not None and scene.token(-1).is_name and before is not None and (before.is_sign(";") or before.is_word("let"))  # type: ignore[union-attr]


def _brackets(scene: Scene) -> str | None:
    here, before, opened = scene.text(0), scene.text(-1), scene.open[-1] if scene.open else None
    if opened is None:
        return f"no bracket is open there: {here} is one too many" if here in {")", "]", "}"} else None
    if here in {")", "]", "}"} and before == ",":
        return f"no comma stands before {here}"
    if opened.text == "{" and before == "{" and _is_behind(scene, "if", distance=1) and opened.kind != "brace":
        return "it is written if c then a else b, without braces"
    if here == "," and opened.text == "(":
        return "there are no pairs: a record has its fields, {A = 1, B = 2}"
    if opened.text == "[" and before == "[" and scene.text(-2) not in {"]", ")"} and scene.here and scene.here.kind in {"int", "string"}:
        return "a list is written 1 :: 2 :: []"
    if here == "," and opened.text == "[" and scene.open[-2:][0].text != "{":
        return "a list is written 1 :: 2 :: []"
    if here == ":" and opened.text == "{":
        return "a field of a record is written {A = 1}; {A : int} is its type"
    if here == "}" and opened.text == "[":
        return "`{[` is ended by `]}`"
    if here in {")", "]", "}"} and CLOSES.get(opened.text) not in {None, here}:
        return f"{opened.text} at {scene.where(opened)} is not ended by {CLOSES[opened.text]} before this"
    return None


def _lets(scene: Scene) -> str | None:
    here, before = scene.text(0), scene.text(-1)
    let = next((it for it in reversed(scene.open) if it.text == "let"), None)
    if before == "let":
        return "a function is declared outside: let holds values alone" if here == "fun" else f"let holds values: let val {here or 'x'} : int = e in .. end"
    if let is None:
        return "`end` ends a let, and none is open there" if here == "end" else None
    has_in = any(it.is_word("in") for it in scene.tokens[scene.tokens.index(let):scene.at])
    if here == "=" and scene.text(-2) == "val":
        return f"a value has a type: val {before} : int = .."
    if here == "end" and not has_in:
        return f"the let at {scene.where(let)} has no `in`: let val x : int = e in .. end"
    if here == ";" and not has_in:
        return f"the let at {scene.where(let)} is written let val x : int = e in .. end"
    if here == "in" and has_in:
        return "a let has one `in`"
    if _stops(scene):
        return f"the let at {scene.where(let)} has no `end`" if has_in else f"the let at {scene.where(let)} has no `in` and no `end`"
    return None


def _stops(scene: Scene) -> bool:
    """Whether the file ends at the place, or a declaration seems to begin there."""
    return scene.is_at_end or (scene.text(0) in {"fun", "and", "val", "table", "sequence", "cookie", "datatype", "type", "con"} and not scene.line_before.strip())


def _cases(scene: Scene) -> str | None:
    here, before = scene.text(0), scene.text(-1)
    case = next((it for it in reversed(scene.open) if it.text == "case"), None)
    if case is not None:
        since = scene.tokens[scene.tokens.index(case):scene.at]
        if here == "=>" and not any(it.is_word("of") for it in since):
            return f"the case at {scene.where(case)} has no `of`: case e of A => .. | B => .."
        if here in {"(", "{"} and (before in {"Some", "::"} or before[:1].isupper()) or (before in {"|", "of"} and here in {"(", "{"}):
            return "a pattern is one deep: give the part a name, and take it apart by a case of its own"
        if here == "->":
            return "a branch is written A => e"
        if here == "=" and before not in OPERATORS:
            return "a branch is written A => e"
        branch = next((it.text for it in reversed(since) if it.is_sign("|", "=>") or it.is_word("of")), "")
        if branch in {"|", "of"} and scene.here and scene.here.kind in {"int", "string", "word", "xml"}:
            return "a branch is written A => e"
        if here == "if" or here == "when":
            return "a branch has no condition: write `if` behind =>"
    if here == "|" and case is None:
        return "a branch stands in a case; the or of bools is written ||"
    return None


def _forms(scene: Scene) -> str | None:
    here, before = scene.text(0), scene.text(-1)
    if before == "fn" and here != "(":
        return None
    if scene.here and scene.here.is_word("fn") and before not in OPERATORS and before != "(":
        return "a function that is passed stands in brackets: (fn r => ..)"
    if before == "(" and _last_call(scene, -1) == "queryX":
        return f"queryX is followed by a function: {FORMS['queryX']}"
    if _last_call(scene) == "queryX":
        return f"queryX is followed by a function in brackets: (fn r => {here} r)" if scene.here and scene.here.is_name else f"queryX is written {FORMS['queryX']}"
    if here == "else" and not _is_behind(scene, "then"):
        return "no `if .. then` stands before this else"
    return None


def _last_call(scene: Scene, distance: int = 0) -> str:
    """Returns the word before the brackets that end so many tokens behind the place."""
    if scene.text(distance - 1) != ")":
        return ""
    depth = 0
    for at in range(scene.at + distance - 1, 0, -1):
        depth += scene.tokens[at].is_sign(")") - scene.tokens[at].is_sign("(")
        if depth == 0:
            return scene.tokens[at - 1].text
    return ""


def _ends(scene: Scene) -> str | None:
    """Returns what is missing where an expression ends too early."""
    here, before = scene.text(0), scene.text(-1)
    ends = scene.is_at_end or here in {")", "]", "}", ";", "fun", "and", "val", "table", "then", "else", "of", "in", "end", "|"}
    if ends and before in OPERATORS and scene.token(-1):
        return f"behind {before} something is missing"
    if ends and _without_else(scene):
        return "an `if` has an else: if c then a else b; where nothing is to be done, else return ()"
    if ends and before in {"then", "else", "of", "in", "if", "case"}:
        return f"behind {before} an expression is missing"
    if _stops(scene) and scene.open:
        opened = scene.open[-1]
        return f"{opened.text} at {scene.where(opened)} is not ended"
    bound = _bound(scene) if _stops(scene) else ""
    if bound:
        return f"behind {bound} <- e stands `;`, and then what is done with {bound}"
    if before == ";" and here == ";":
        return "between two ; a statement is missing"
    if re.fullmatch(r"[a-z]\w*", before) and here == "." and scene.text(1)[:1].islower():
        return f"a field begins with a capital: {before}.{scene.text(1)[:1].upper()}{scene.text(1)[1:]}"
    if here in KEYWORDS and here:
        return f"`{here}` is a word of the language, and does not go on what stands before it"
    return None


def _bound(scene: Scene) -> str:
    """Returns the name before the last `<-` of the declaration where no `;` stands behind it."""
    for at in range(scene.at - 1, 0, -1):
        token = scene.tokens[at]
        if token.is_sign(";") or token.is_word("fun", "and", "val", "table"):
            return ""
        if token.is_sign("<-"):
            return scene.tokens[at - 1].text
    return ""


def _without_else(scene: Scene) -> bool:
    """Whether more `then` than `else` stand since the declaration began."""
    count = 0
    for token in reversed(scene.tokens[:scene.at]):
        if token.is_word("fun", "and", "table"):
            break
        count += token.is_word("then") - token.is_word("else")
    return count > 0
