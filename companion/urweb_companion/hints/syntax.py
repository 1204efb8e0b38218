"""Hints where what stands there is spelled by no rule: what usually stands there instead, in the order in which it is looked for."""
from urweb_companion.hints import declarations, expressions, statements
from urweb_companion.scene import Scene


def no_rule(scene: Scene) -> list[str]:
    if scene.refusal.file.endswith(".urs"):
        return ["a signature has lines val f : t, with the names of pages and their types, as val main : unit -> transaction page"]
    looks = (statements.look,) if scene.in_sql else (statements.look, declarations.look, expressions.look)
    for look in looks:
        hint = look(scene)
        if hint:
            return [hint]
    return ["look there and before it for a missing operand, bracket, `end`, closing tag or type"]


def too_deep(_: Scene) -> list[str]:
    return ["make a function or a val of a part; statements with `;` between stand in one another too"]
