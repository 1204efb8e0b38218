"""Hints for names that are not known, and for names that stand twice."""
from difflib import get_close_matches

from urweb_companion.declared import Declared, Module, module_of, modules
from urweb_companion.hints.markup import ATTRIBUTES
from urweb_companion.scene import Scene
from urweb_companion.tokens import KEYWORDS, Token

# What other languages, and the whole of Ur/Web, call it.
ELSEWHERE = {
    "true": "True is written with a capital", "false": "False is written with a capital", "null": "a value that may be missing is None or Some e, of type option t",
    "nil": "the empty list is written []", "Nil": "the empty list is written []", "Cons": "a list is written e :: l", "or": "the or of bools is written ||",
    "orelse": "the or of bools is written ||", "andalso": "the and of bools is written &&", "mod": "the rest of a division is written %",
    "div": "a division is written /", "bless": "no address is written by hand: link={f x}", "url": "no address is written by hand: link={f x}",
    "redirect": "there is no redirect: end with the call of the page, as in main ()", "query": "queryX, queryL, oneRow and oneOrNoRows are there",
    "query1": "queryX, queryL, oneRow and oneOrNoRows are there", "queryX1": "queryX is there, and its rows have a record for each table: r.T.A",
    "queryX'": "queryX is there; run one query, and then the other", "queryI": "queryX and queryL are there", "queryL1": "queryL is there, and its rows have a record for each table: r.T.A",
    "oneRow1": "oneRow is there, and its row has a record for each table: r.T.A", "oneOrNoRows1": "oneOrNoRows is there, and its row has a record for each table: r.T.A",
    "oneRowE1": "oneRow is there, and an expression has an AS name: r.N", "hasRows": "use oneOrNoRows, or COUNT( * )", "tryDml": "dml is there, and ends the request where it fails",
    "readError": "no text is read as an int: an int comes as an argument of a path", "read": "no text is read as an int: an int comes as an argument of a path",
    "strcat": "texts are joined by ^", "strlen": "there is no length of a text", "String": "there are ^, = and < on texts, and no library", "List": "there is no library: write a function over lists by case",
    "Option": "write case e of None => .. | Some x => ..", "cdata": "text is put into markup by {[e]}", "txt": "text is put into markup by {[e]}",
    "rpc": "pages have no scripts", "source": "pages have no scripts", "signal": "pages have no scripts", "alert": "pages have no scripts", "spawn": "pages have no scripts",
    "debug": "there is no log of a program", "naughtyDebug": "there is no log of a program", "now": "there is no clock", "getHeader": "a page does not see the headers of a request",
    "requestHeader": "a page does not see the headers of a request", "rand": "there is no chance", "clearCookie": "setCookie to an empty value",
    "float": "int, string and bool are there", "time": "int, string and bool are there", "char": "int, string and bool are there", "blob": "int, string and bool are there",
    "xbodyT": "page, xbody, xtable, xtr and xform are there", "xhtml": "page, xbody, xtable, xtr and xform are there", "css_class": "a page has no styles of its own",
    "Top": "there is no library", "Basis": "there is no library", "print": "a page shows what it returns", "printf": "a page shows what it returns",
}
BUILT_IN = {"return", "show", "not", "error", "nextval", "getCookie", "setCookie", "dml", "queryX", "queryL", "oneRow", "oneOrNoRows", "fold",
            "int", "string", "bool", "unit", "option", "list", "page", "xbody", "xtable", "xtr", "xform", "xml", "transaction", "map"}
WANTED_SORTS = {"nextval": "sequence", "getCookie": "cookie", "setCookie": "cookie", "FROM": "table", "INTO": "table", "UPDATE": "table", "JOIN": "table"}


def near(name: str, known: set[str]) -> list[str]:
    """Returns the names that are most like this one, those that differ in capitals first."""
    others = sorted(known - {name})
    same = [it for it in others if it.lower() == name.lower()]
    return same or get_close_matches(name, others, n=2, cutoff=0.65)


def meant(name: str, known: set[str]) -> list[str]:
    close = near(name, known)
    return [f"is it {' or '.join(close)}?"] if close else []


def unknown(scene: Scene) -> list[str]:
    name = scene.refusal.found
    if scene.refusal.file.endswith(".urs"):
        return _in_signature(scene, name)
    if "." in name:
        return _with_a_point(scene, *name.split(".", 1))
    if scene.part.endswith(f".{name}") and name[:1].islower():
        return [f"a field begins with a capital: {scene.part[:-len(name)]}{name[:1].upper()}{name[1:]}"]
    if scene.part.startswith("{") and name[:1].islower():
        return [f"a field begins with a capital: {name[:1].upper()}{name[1:]}"]
    wrong_sort = _of_another_sort(scene, name)
    if wrong_sort:
        return wrong_sort
    if scene.part.startswith(("INSERT", "UPDATE")) or _is_column(scene, name):
        return _column(scene, name)
    return _elsewhere(scene, name) or _plain(scene, name)


def _plain(scene: Scene, name: str) -> list[str]:
    here = module_of(scene.source)
    later = here.find(name)
    if later and later.token.start >= scene.refusal.start and later.sort in {"fun", "val", "table", "sequence", "cookie", "type", "con", "datatype"}:
        joined = "join the two functions by `and`, or declare it above" if later.sort == "fun" else "declare it above its use"
        return [f"{name} is declared below, at {scene.where(later.token)}: {joined}"]
    special = _attribute(scene) or _number(scene, name) or _assigned(scene, name)
    if special:
        return special
    words = {it.text for it in here.tokens if it.is_name}
    if name in ELSEWHERE:
        return [ELSEWHERE[name]]
    if scene.text(-1) == "action" or _is_action(scene):
        return ["a button names all arguments but the last, which comes from the form", *meant(name, words | BUILT_IN)]
    kind = name[:1].isupper()
    return meant(name, {it for it in words | BUILT_IN | {"True", "False", "None", "Some"} if it[:1].isupper() == kind or it.lower() == name.lower()} - KEYWORDS)


def _attribute(scene: Scene) -> list[str]:
    """Returns a hint where the code is of an attribute that its tag does not have."""
    opened = scene.open[-1] if scene.open else None
    at = scene.tokens.index(opened) if opened and opened.kind == "brace" else 0
    tag = next((it for it in reversed(scene.tokens[:at]) if it.kind in {"open", "end", "closed"}), None)
    if at < 2 or tag is None or tag.kind != "open" or not scene.tokens[at - 1].is_sign("="):
        return []
    own = ATTRIBUTES.get(tag.text[1:], [])
    name = scene.tokens[at - 2].text
    return [] if name in own else [f"{tag.text[1:]} has {' and '.join(own) + ' alone' if own else 'no attributes'}: take {name} out"]


def _number(scene: Scene, name: str) -> list[str]:
    last = scene.token(-1)
    touches = last is not None and last.kind == "int" and last.end == scene.refusal.start
    return [f"an int is written in the digits 0 to 9 alone, and {name} is read as a name"] if touches else []


def _assigned(scene: Scene, name: str) -> list[str]:
    if scene.text(1) == "=" and scene.open and scene.open[-1].text == "{" and name[:1].isupper():
        return [f"a comma stands between the fields of a record: .., {name} = .."]
    if scene.text(1) == "=" and scene.text(-1) in {"=", ";"}:
        return [f"a value gets a name by let val {name} : int = e in .. end, and what runs by {name} <- e; .."]
    return []


def _is_action(scene: Scene) -> bool:
    """Whether the place is in the code of `action={..}`."""
    opened = scene.open[-1] if scene.open else None
    if opened is None or opened.kind != "brace":
        return False
    at = scene.tokens.index(opened)
    return at >= 2 and scene.tokens[at - 2].text == "action"


def _elsewhere(scene: Scene, name: str) -> list[str]:
    """Returns the module of the folder that declares the name, where one does."""
    here = module_of(scene.source).name
    for module in _beside(scene):
        if module.name != here and module.find(name):
            return [f"module {module.name} declares {name}: it is called {module.name}.{name} here, and {module.source.path.stem} stands before this module in the project file"]
    return []


def _beside(scene: Scene) -> list[Module]:
    folder = (scene.folder / scene.refusal.file).parent
    return modules(str(folder / "any.urp"))


def _in_signature(scene: Scene, name: str) -> list[str]:
    stem = scene.refusal.path.stem
    module = next((it for it in _beside(scene) if it.source.path.stem == stem), None)
    functions = {it.name for it in module.declared if it.sort == "fun"} if module else set()
    return [f"{stem}.ur declares no function {name}", *meant(name, functions)] if module and name not in functions else meant(name, functions)


def _of_another_sort(scene: Scene, name: str) -> list[str]:
    wanted = WANTED_SORTS.get(scene.text(-1))
    other = module_of(scene.source).find(name)
    if wanted is None:
        return []
    if other and other.sort != wanted:
        return [f"{name} is declared by `{other.sort}`, and {scene.text(-1)} wants a {wanted}"]
    known = {it.name for it in module_of(scene.source).declared if it.sort == wanted}
    foreign = _elsewhere(scene, name)
    return foreign or meant(name, known) or ([f"the {wanted}s here are {', '.join(sorted(known))}"] if known else [f"no {wanted} is declared here"])


def _is_column(scene: Scene, name: str) -> bool:
    return name[:1].isupper() and (scene.in_sql or scene.part.startswith("table"))


def _column(scene: Scene, name: str) -> list[str]:
    """Returns the columns of the table of a change, or of a declaration."""
    if scene.part.startswith("table"):
        table = module_of(scene.source).find(_statement_in(scene)[1].text, "table")
        columns = set(module_of(scene.source).columns(table)) if table else set()
        return [f"a key names columns of its table, and {name} is none", *meant(name, columns)]
    table = _table_of_change(scene)
    columns = set(table[1]) if table else set()
    return meant(name, columns) or ([f"the columns of {table[0]} are {', '.join(sorted(columns))}"] if table and columns else [])


def _statement(scene: Scene) -> list[Token]:
    """Returns the tokens of the statement around the place."""
    opened = next((it for it in reversed(scene.open) if it.text in {"SELECT", "INSERT", "UPDATE", "DELETE"}), None)
    at = scene.tokens.index(opened) if opened else scene.at
    depth, found = 0, []
    for token in scene.tokens[at:]:
        depth += token.is_sign("(") - token.is_sign(")")
        if depth < 0:
            break
        found.append(token)
    return found


def _table_of_change(scene: Scene) -> tuple[str, dict[str, str]] | None:
    for before, token in zip(statement := _statement(scene), statement[1:]):
        if before.is_word("INTO", "UPDATE", "FROM") and token.is_name:
            return token.text, columns_of(scene, token.text)
    return None


def columns_of(scene: Scene, table: str) -> dict[str, str]:
    for module in [module_of(scene.source), *_beside(scene)]:
        it: Declared | None = module.find(table, "table")
        if it:
            return module.columns(it)
    return {}


def items_of(statement: list[Token]) -> dict[str, str]:
    """Returns the tables of FROM by the names that rows have for them."""
    found: dict[str, str] = {}
    behind = False
    for at, token in enumerate(statement):
        behind = (behind or token.is_word("FROM")) and not token.is_word("WHERE", "GROUP", "ORDER", "LIMIT", "OFFSET")
        starts = behind and at > 0 and (statement[at - 1].is_word("FROM", "JOIN") or statement[at - 1].is_sign(","))
        if not (starts and token.kind == "word"):
            continue
        last = at + 2 if at + 2 < len(statement) and statement[at + 1].is_sign(".") else at
        table = statement[last].text
        named = statement[last + 2].text if last + 2 < len(statement) and statement[last + 1].is_word("AS") else table[:1].upper() + table[1:]
        found[named] = table
    return found


def _with_a_point(scene: Scene, first: str, second: str) -> list[str]:
    alias = first[:1].upper() + first[1:]
    if scene.in_sql and second[:1].isupper():
        items = items_of(_statement(scene))
        if alias in items:
            columns = columns_of(scene, items[alias])
            return meant(second, set(columns)) or ([f"the columns of {items[alias]} are {', '.join(sorted(columns))}"] if columns else [])
        renamed = [it for it, table in items.items() if table[:1].upper() + table[1:] == alias]
        if renamed:
            return [f"{first} is named {renamed[0]} here by AS: {renamed[0]}.{second}"]
        return [f"FROM names {' and '.join(sorted(items))} here, and no {first}"] if items else []
    module = next((it for it in _beside(scene) if it.name == first), None)
    if module is None:
        return [ELSEWHERE[first]] if first in ELSEWHERE else [f"no module {first} is in the folder", *meant(first, {it.name for it in _beside(scene)})]
    declared = {it.name for it in module.declared}
    if second in declared:
        return [f"module {first} stands before this one in the project file, where its names are used"]
    return meant(second, declared) or [f"module {first} declares {', '.join(sorted(declared))}" if declared else f"module {first} declares nothing"]


def repeated(scene: Scene) -> list[str]:
    name, part = scene.refusal.found, scene.part
    first = part.split(None, 1)[0] if part.strip() else ""
    if first == "SELECT":
        items = items_of(_statement_in(scene))
        again = name in items
        return [f"two items of FROM are named {name}: give one another name by AS" if again else f"the row has two fields {name}: give one another name by AS"]
    if first == "table":
        return [f"the table has two columns {name}, or names one twice in a key"]
    if first in {"INSERT", "UPDATE"}:
        return [f"{first} names each column once: take one {name} out"]
    if first == "case" or scene.text(-1) == "|":
        more = ["a case in a branch takes all branches behind it: put it in brackets where they are the outer one's"]
        return [f"two branches are for {name}: take one out", *(more if _has_two_cases(scene) else [])]
    if first.startswith("{"):
        return [f"the record has two fields {name}: take one out"]
    others = [it for it in module_of(scene.source).declared if it.name == name]
    if len(others) > 1:
        return [f"{name} is declared at {' and at '.join(scene.where(it.token) for it in others[:3])}: give one another name"]
    return [f"give one {name} another name"]


def _has_two_cases(scene: Scene) -> bool:
    """Whether two `case` stand between the beginning of the function and the place."""
    since = 0
    for token in reversed(scene.tokens[:scene.at]):
        if token.is_word("fun", "and"):
            break
        since += token.is_word("case")
    return since > 1


def _statement_in(scene: Scene) -> list[Token]:
    start, end = scene.refusal.start, scene.refusal.end
    return [it for it in scene.tokens if start <= it.start < end]
