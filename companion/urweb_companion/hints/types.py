"""Hints for kinds, types and rows that are not the ones that are wanted, in programs and in SQL."""
import re

from urweb_companion.hints.names import columns_of, meant
from urweb_companion.scene import Scene
from urweb_companion.shown_types import as_source, fields_of

SCALARS = {"int", "string", "bool"}
MARKUP = {"xbody", "xtable", "xtr", "page", "xml"}
# What a form's tag gives as a field.
FIELD_OF = {"string": "<textbox{#%s}/>", "bool": "<checkbox{#%s}/>"}


def kind(scene: Scene) -> list[str]:
    found, wanted = scene.refusal.found, scene.refusal.wanted
    if found == "Type -> Type" and wanted == "Type":
        return [f"{scene.part} makes a type of another one: write {scene.part} int, for example"]
    if found == "{Type}" and wanted == "Type":
        return [f"`$` makes a type of a row: ${scene.part}" if re.fullmatch(r"\w+", scene.part) else "`$` makes a type of a row: $(..)"]
    if found == "Type" and "->" in wanted:
        return ["this is a type, and a constructor that wants an argument stands there"]
    return ["give a constructor all of its arguments, and no more"]


def mismatch(scene: Scene) -> list[str]:
    found, wanted = scene.refusal.found, scene.refusal.wanted
    named = {
        "the field": _field, "annotation": _annotation, "a branch": _branch, "no further argument": _arguments, "int, string or bool": _scalar,
        "a record": _record, "xml": _markup_wanted, "transaction": _transaction_wanted,
    }
    if wanted in named:
        return named[wanted](scene)
    have, want = as_source(found), as_source(wanted)
    if scene.refusal.file.endswith(".urs"):
        return [f"the function has the type {have}: write it so in the signature"]
    if fields_of(found) and fields_of(wanted) and scene.part.startswith("<submit"):
        return _form(fields_of(found), fields_of(wanted))
    if fields_of(found) and fields_of(wanted):
        return _records(fields_of(found), fields_of(wanted))
    return _pair(scene, have, want)


def _pair(scene: Scene, have: str, want: str) -> list[str]:
    """Returns what turns one type into the other."""
    if have == f"option {want}" or have == f"option ({want})":
        return ["case e of None => .. | Some x => .. takes the value out"]
    if want in {f"list {have}", f"list ({have})"}:
        return ["e :: [] makes a list of it"]
    if have == "transaction unit" and want.startswith("transaction "):
        return [f"it gives nothing back: go on behind it, e; return .., where {want.removeprefix('transaction ')} is wanted"]
    if want in {f"option {have}", f"option ({have})"}:
        return ["Some e makes an option of it"]
    if have == want.removeprefix("transaction ") or (have == "xml" and want.startswith("transaction ")):
        return ["return e makes it something that runs: write return before it"]
    if have.removeprefix("transaction ") == want:
        return ["it runs: take `return` away, or run it first, x <- e; .."] if scene.part.startswith("return") else ["it runs: give its result a name first, x <- e; .."]
    if have.endswith(f"-> {want}"):
        return [f"this is a function: give it its arguments{_call(scene.part)}"]
    if want == "string" and have in {"int", "bool"}:
        return [f"show {scene.part} makes a text of it" if re.fullmatch(r"\w+", scene.part) else "show e makes a text of it"]
    if have == "string" and want == "int":
        joins = scene.source is not None and re.match(rb"\s*\+", scene.source.data[scene.refusal.end:]) is not None
        return ["texts are joined by ^"] if joins or scene.line_before.rstrip().endswith("+") else ["no text becomes an int: an int comes as an argument of a path, or is written without quotes"]
    if want == "bool" and have in {"int", "string"}:
        return ["write a comparison, as n <> 0" if have == "int" else "write a comparison, as s <> \"\""]
    if have.startswith("xml ") and want.startswith("xml "):
        return [f"markup with fields of a form has the type {have}"]
    if want in MARKUP or want.startswith("xml "):
        return _markup(scene, have, want)
    if have in MARKUP and want == "string":
        return ["a text is written between double quotes, and is no markup"]
    return []


def _call(part: str) -> str:
    return f", as in {part} ()" if re.fullmatch(r"[\w.]+", part) else ""


def _markup(scene: Scene, have: str, want: str) -> list[str]:
    if have in SCALARS:
        return ["{e} puts markup in, and {[e]} shows an int, a string or a bool as text"]
    stands = {"xtable": "rows, <tr>, stand in <table>", "xtr": "cells, <td>, stand in <tr>", "page": "a page stands in nothing: take the markup of its body alone"}
    if have in stands:
        return [stands[have]]
    if want == "xtable":
        return ["a table holds rows: <tr><td>..</td></tr>"]
    return []


def _markup_wanted(_: Scene) -> list[str]:
    return ["markup stands between <xml> and </xml>"]


def _transaction_wanted(scene: Scene) -> list[str]:
    return [f"it does not run, so no `<-` or `;` stands with it: let val x : {as_source(scene.refusal.found)} = .. in .. end gives it a name"]


def _field(scene: Scene) -> list[str]:
    """Returns the fields that the record has, and which of them is meant."""
    fields = fields_of(scene.refusal.found)
    *front, name = re.split(r"\s*\.\s*", scene.part.strip())
    if not fields:
        return []
    deeper = [outer for outer, inner in fields.items() if re.search(rf"[{{,]\s*{re.escape(name)} :", inner)]
    if deeper:
        return [f"the row has a record for each table: {'.'.join([*front, deeper[0], name])}"]
    table = columns_of(scene, front[-1][:1].lower() + front[-1][1:]) if len(front) > 1 else {}
    if name in table:
        return [f"the query does not ask for {name}: add {front[-1][:1].lower() + front[-1][1:]}.{name} to its SELECT"]
    close = meant(name, set(fields))
    return [f"the fields of the record are {', '.join(fields)}", *close]


def _annotation(scene: Scene) -> list[str]:
    if scene.refusal.found == "error":
        return ["error e stands where a type is wanted: as a branch, as an argument, or at the end of a function"]
    return ["the type is not known there: give it a name with its type, let val x : option int = .. in .. end"]


def _branch(scene: Scene) -> list[str]:
    found = scene.refusal.found
    return [f"write a branch for {found}, or a last one, _ => .."] if found != "_" else ["write a last branch, _ => .."]


def _arguments(scene: Scene) -> list[str]:
    return ["the function has fewer parameters: look for a missing bracket, operator or `;` before this"] if scene.part else []


def _scalar(scene: Scene) -> list[str]:
    have = as_source(scene.refusal.found)
    if have.startswith("option "):
        return ["int, string and bool are compared and shown: case e of None => .. | Some x => .. takes the value out"]
    if have == "bool":
        return ["bools are compared by = and <> alone"]
    if scene.line_before.lstrip().startswith("cookie"):
        return ["a cookie is an int, a string or a bool: declare one for each part"]
    return ["int, string and bool are compared and shown, and nothing else"]


def _record(scene: Scene) -> list[str]:
    if scene.refusal.found == "string":
        return ["texts are joined by ^; ++ joins records and rows"]
    if scene.refusal.found.startswith("list "):
        return ["lists are not joined by ++: write a function over them by case"]
    return ["a field is taken of a record"]


def _form(fields: dict[str, str], wanted: dict[str, str]) -> list[str]:
    """Returns how a form's fields and the last parameter of its function differ."""
    hints = []
    for name in sorted(wanted.keys() - fields.keys()):
        tag = FIELD_OF.get(wanted[name])
        hints.append(f"the form has no field {name}: add {tag % name}" if tag else f"no field of a form is of type {wanted[name]}: {name}")
    for name in sorted(fields.keys() - wanted.keys()):
        hints.append(f"the function's last parameter has no field {name} : {fields[name]}")
    for name in sorted(it for it in fields.keys() & wanted.keys() if fields[it] != wanted[it]):
        hints.append(f"the field {name} is a {fields[name]}, and the function's last parameter has {name} : {wanted[name]}")
    return hints


def _records(fields: dict[str, str], wanted: dict[str, str]) -> list[str]:
    hints = []
    missing, more = sorted(wanted.keys() - fields.keys()), sorted(fields.keys() - wanted.keys())
    if missing:
        hints.append(f"missing: {', '.join(f'{it} : {wanted[it]}' for it in missing)}")
    if more:
        hints.append(f"not wanted: {', '.join(f'{it} : {fields[it]}' for it in more)}")
    hints += [f"{it} is {fields[it]}, and {wanted[it]} is wanted" for it in sorted(fields.keys() & wanted.keys()) if fields[it] != wanted[it]]
    return hints


def not_apart(scene: Scene) -> list[str]:
    both = sorted(fields_of(scene.refusal.found).keys() & fields_of(scene.refusal.wanted).keys())
    if both and scene.part.startswith("<form"):
        return [f"two fields of the form are named {', '.join(both)}"]
    if both:
        return [f"both have {', '.join(both)}: take it out of one side, r -- #{both[0]}"]
    return ["say what is apart in brackets: [r ~ s] in a function over rows, [[nm] ~ rest] in a fold"]


def in_sql(scene: Scene) -> list[str]:
    found, wanted = scene.refusal.found, scene.refusal.wanted
    if wanted == "GROUP BY":
        column = found[:1].lower() + found[1:]
        return [f"beside COUNT, SUM, MIN and MAX a column is grouped: add GROUP BY {column}, or leave {column} out"]
    if found == "no value":
        return [f"an INSERT gives each column of its table a value: {wanted} has none"]
    if wanted == "int, string, bool or an option of these":
        return [f"{'a column is' if scene.part.startswith('table') else 'what {[e]} puts in is'} an int, a string or a bool, or an option of one"]
    if "LIMIT" in scene.part or "OFFSET" in scene.part:
        return ["LIMIT and OFFSET are ints"]
    if found == "NULL" or wanted == "an option" or "option " in found + wanted:
        return _options_in_sql(scene)
    if found.isdigit() and wanted.isdigit():
        return [f"values: {found}; columns: {wanted}"]
    if wanted == "bool":
        return [f"a condition is a comparison, as {scene.part} <> {'0' if found == 'int' else chr(39) * 2}" if "\n" not in scene.part and len(scene.part) < 40 else "a condition is a comparison"]
    if wanted == "int or string":
        return ["bools are compared by = and <> alone"]
    if scene.line_before.rstrip().endswith("SUM("):
        return ["SUM adds ints"]
    if {found, wanted} == {"int", "string"}:
        return ["an int is written 3, and a text 'a'; what {[e]} puts in has the type of e"]
    return []


def _options_in_sql(scene: Scene) -> list[str]:
    """Returns what is to do where a column that may be empty, NULL or SOME stands in the wrong place."""
    found, wanted = as_source(scene.refusal.found), as_source(scene.refusal.wanted)
    if wanted == "an option":
        return [f"IS NULL is for columns of type option {found}: this has a value in each row"]
    if found == "NULL" and wanted == "annotation":
        return ["NULL stands beside = or <> and a column that may be empty, or is what INSERT and SET give to one"]
    if found == "NULL":
        return [f"NULL is for columns of type option {wanted}: this has a value in each row"]
    if scene.part.startswith("table"):
        return ["a column of a key has a value in each row, and is no option"]
    if wanted == f"option {found}":
        return ["SOME(e) makes an option of it"]
    if found == f"option {wanted}":
        return ["beside what may be empty stands SOME(e) or NULL"]
    if wanted == "int or string":
        return ["options are compared by = and <> alone, and ordered by ORDER BY"]
    return ["SOME, SUM, MIN and MAX take no options"]


def too_large(_: Scene) -> list[str]:
    return ["make the type smaller, or name a part of it by a datatype, which counts as one"]
