"""Hints: what was probably meant where a project is refused, by the code of the refusal."""
from collections.abc import Callable

from urweb_companion.hints import files, markup, names, pages, spelling, syntax, types
from urweb_companion.scene import Scene

BY_CODE: dict[str, Callable[[Scene], list[str]]] = {
    "E01": files.bad_line,
    "E02": files.missing,
    "E03": files.not_utf8,
    "E04": spelling.no_token,
    "E05": syntax.no_rule,
    "E06": syntax.too_deep,
    "E07": names.unknown,
    "E08": names.repeated,
    "E09": types.kind,
    "E10": types.mismatch,
    "E11": types.not_apart,
    "E12": types.in_sql,
    "E13": markup.misplaced,
    "E14": pages.writes,
    "E15": pages.not_static,
    "E16": types.too_large,
    "E17": pages.instances,
    "E18": pages.unfolded,
    "E20": pages.limit,
}


def hints_of(scene: Scene) -> list[str]:
    """Returns the hints for a refusal, none where nothing is known of it."""
    hint = BY_CODE.get(scene.refusal.code)
    return hint(scene) if hint else []
