"""Hints for statements of SQL that no rule spells."""
from urweb_companion.scene import Scene
from urweb_companion.tokens import STATEMENTS, Token

WORDS = frozenset("""select from where order group by having limit offset join on and or not as asc desc insert into values update set delete like in
    between is null distinct count sum min max avg union left right inner outer full cross exists case true false""".split())
NOT_THERE = {
    "HAVING": "there is no HAVING: ask for all groups, and leave rows out in the program, if r.N > 1 then <xml>..</xml> else <xml/>",
    "LIKE": "there is no LIKE: texts are compared by = <> < <= > >= alone",
    "IN": "there is no IN: write t.A = 1 OR t.A = 2, or join the other table",
    "BETWEEN": "there is no BETWEEN: write t.A >= 1 AND t.A <= 3",
    "IS": "there is no IS: each column has a value",
    "EXISTS": "there are no subqueries: ask first, r <- oneOrNoRows (..), and go on with what it gave",
    "UNION": "there is no UNION: ask twice",
    "LEFT": "there are no outer joins: JOIN .. ON is there; ask for the other rows by a query of their own",
    "RIGHT": "there are no outer joins: JOIN .. ON is there; ask for the other rows by a query of their own",
    "FULL": "there are no outer joins: JOIN .. ON is there; ask for the other rows by a query of their own",
    "INNER": "write JOIN .. ON alone",
    "CROSS": "write the tables with a comma between, FROM t, u",
    "NATURAL": "write JOIN .. ON with the condition",
    "DISTINCT": "there is no DISTINCT: GROUP BY the columns that are asked for",
    "RETURNING": "there is no RETURNING: the number of nextval is known before the INSERT",
}
PARTS = ("WHERE", "GROUP", "ORDER", "LIMIT", "OFFSET")
AGGREGATES = ("COUNT", "SUM", "MIN", "MAX")


def look(scene: Scene) -> str | None:
    """Returns a hint where the place is in a statement."""
    if scene.here and scene.here.is_word(*STATEMENTS) and scene.text(-1) in {"dml", "queryX", "queryL", "oneRow", "oneOrNoRows"}:
        return f"a statement stands in brackets: {scene.text(-1)} ({scene.text(0)} ..)"
    begins = scene.text(-1) == "(" and scene.text(-2) in {"dml", "queryX", "queryL", "oneRow", "oneOrNoRows"}
    if begins:
        return _begins(scene)
    statement = next((it for it in reversed(scene.open) if it.text in STATEMENTS), None)
    if statement is None:
        return None
    if scene.open[-1].is_sign("{", "[") and scene.text(-1) in {"{", "["} and scene.open[-1].start > statement.start:
        return "a value of the program in a statement is written {[e]}" if scene.text(-1) == "{" else None
    if not scene.in_sql:
        return "`{[` is ended by `]}`" if scene.text(0) == "}" and scene.open[-1].text == "[" else None
    return _in_statement(scene, statement)


def _begins(scene: Scene) -> str | None:
    here = scene.text(0)
    if here.lower() in WORDS and here != here.upper():
        return f"words of SQL are written in capitals: {here.upper()}"
    if scene.text(-2) == "dml":
        return "dml runs INSERT, UPDATE or DELETE, and queryX, queryL, oneRow and oneOrNoRows a SELECT" if here == "SELECT" else None
    if here in STATEMENTS:
        return f"{scene.text(-2)} runs a SELECT, and dml an INSERT, UPDATE or DELETE"
    return "a SELECT stands there"


def _in_statement(scene: Scene, statement: Token) -> str | None:
    here, before = scene.text(0), scene.text(-1)
    if scene.here and scene.here.kind == "word" and here.lower() in WORDS and here != here.upper() and before != ".":
        return f"words of SQL are written in capitals: {here.upper()}"
    if here in NOT_THERE:
        return NOT_THERE[here]
    if before == "DISTINCT":
        return NOT_THERE["DISTINCT"]
    if here == "SELECT":
        return "there are no subqueries: ask first, r <- oneRow (..), and put {[r.N]} in"
    if here == "(" and scene.here and before.isupper() and before not in AGGREGATES and scene.token(-1):
        return "there is no AVG: ask for SUM and COUNT, and divide in the program" if before == "AVG" else f"SQL here has no function {before}: COUNT, SUM, MIN and MAX are there"
    if here in {"/", "%"}:
        return "SQL here has + - * alone: divide in the program, {[n / 2]}"
    if here == "||":
        return "texts are not joined in SQL: join them in the program, {[s ^ \"a\"]}"
    if scene.here and scene.here.kind == "string":
        return f"a text in SQL stands between single quotes: '{here[1:-1]}'"
    if here == "=" and before == "=":
        return "equality is written ="
    if here == "*" and before == ".":
        return "SELECT * asks for all columns of all tables; else each is named, t.A, t.B"
    if before == "," and here in {"FROM", "WHERE", "VALUES", ")"}:
        return f"no comma stands before {here}"
    if here == ";":
        return "a statement ends with its bracket, without ;"
    return _by_statement(scene, statement)


def _by_statement(scene: Scene, statement: Token) -> str | None:
    here, before = scene.text(0), scene.text(-1)
    if before == "." and here[:1].islower():
        return f"a column begins with a capital: {scene.text(-2)}.{here[:1].upper()}{here[1:]}"
    if before == "AS" and here[:1].islower():
        return f"a name behind AS begins with a capital: {here[:1].upper()}{here[1:]}"
    if statement.text == "INSERT" and here == "VALUES":
        return "an INSERT names its columns: INSERT INTO t (A, B) VALUES (..)"
    if statement.text == "INSERT" and here[:1].islower() and before in {"(", ","}:
        return _value(scene, here) if _has(scene, statement, "VALUES") else f"a column begins with a capital: {here[:1].upper()}{here[1:]}"
    if statement.text == "UPDATE" and before in {"SET", ","}:
        return "SET names a column alone, which begins with a capital: SET A = .."
    if statement.text == "DELETE" and before == "DELETE":
        return "it is written DELETE FROM t"
    if statement.text == "SELECT":
        hint = _in_select(scene, statement)
        if hint:
            return hint
    last = scene.token(-1)
    if last and last.is_name and last.text[:1].islower() and scene.text(-2) not in {".", "FROM", "JOIN", "INTO", "UPDATE"} and here != ".":
        return _value(scene, last.text)
    return None


def _value(_: Scene, name: str) -> str:
    return f"a value of the program in a statement is written {{[{name}]}}"


def _has(scene: Scene, statement: Token, word: str) -> bool:
    """Whether the statement has had this word before the place."""
    return any(it.is_word(word) for it in scene.tokens[scene.tokens.index(statement):scene.at])


def _last_part(scene: Scene, statement: Token) -> str:
    """Returns the part of the query that the place is in: `SELECT`, `FROM`, `WHERE` and so on."""
    seen = [it.text for it in scene.tokens[scene.tokens.index(statement):scene.at] if it.is_word("SELECT", "FROM", "ON", *PARTS)]
    return seen[-1] if seen else "SELECT"


def _names_behind_as(scene: Scene, statement: Token) -> set[str]:
    found = scene.tokens[scene.tokens.index(statement):]
    return {it.text for before, it in zip(found, found[1:]) if before.is_word("AS")}


def _in_select(scene: Scene, statement: Token) -> str | None:
    here, before, part = scene.text(0), scene.text(-1), _last_part(scene, statement)
    if before == "(" and scene.text(-2) == "COUNT":
        return "COUNT counts rows: COUNT( * ) AS N"
    if part == "SELECT" and here in {"FROM", ","} and before == ")":
        return "what is counted or computed gets a name: COUNT( * ) AS N"
    if part == "ORDER" and here in AGGREGATES:
        return "rows are not ordered by COUNT, SUM, MIN or MAX: order by a column that is grouped"
    if part in {"LIMIT", "OFFSET"} and here[:1].islower():
        return _value(scene, here)
    if part == "ORDER" and scene.here and scene.here.is_name and scene.text(-2) == ".":
        return "behind a column of ORDER BY stands ASC, DESC, a comma, or the next part"
    last = scene.token(-1)
    if last and last.is_name and last.text[:1].isupper() and last.text.lower() not in WORDS - {"count", "sum", "min", "max"} and scene.text(-2) not in {".", "AS"} and here != ".":
        return _bare(scene, statement, last.text, part)
    if here in PARTS and part in PARTS and part != here and PARTS.index(here) < PARTS.index(part):
        return "the parts come in this order: WHERE, GROUP BY, ORDER BY, LIMIT, OFFSET"
    if part in {"LIMIT", "OFFSET"}:
        return f"behind {part} stands a number or {{[e]}}"
    if part == "FROM" and here in {")", *PARTS} and _has(scene, statement, "JOIN"):
        return "behind JOIN stands a condition: JOIN u ON t.A = u.A"
    return None


def _bare(scene: Scene, statement: Token, name: str, part: str) -> str | None:
    if name in {"COUNT", "SUM", "MIN", "MAX"}:
        return f"{name} has brackets: {name}( * )" if name == "COUNT" else f"{name} has brackets: {name}(t.A)"
    if part == "ORDER" and name in _names_behind_as(scene, statement):
        return f"ORDER BY names no {name} of AS: write there what {name} stands for"
    return f"a column in a query is written with its table: t.{name}"
