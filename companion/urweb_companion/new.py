"""`new NAME`: an application of twenty lines to begin with: its project file, module, signature, a file of tests and a README."""
import argparse
import re
import sys
from collections.abc import Sequence
from pathlib import Path

NAME = re.compile(r"[a-z][A-Za-z0-9_]*")

MODULE = '''\
(* Items of a list: the page shows them, a form adds one, and a button takes one away. *)
sequence ids
table item : {Id : int, Body : string} PRIMARY KEY Id

fun main () : transaction page =
  rows <- queryX (SELECT item.Id, item.Body FROM item ORDER BY item.Id)
    (fn r => <xml><p>{[r.Item.Body]}</p><form><submit action={drop r.Item.Id} value="Drop"/></form></xml>);
  return <xml>
    <head><title>@TITLE@</title></head>
    <body>
      <h1>@TITLE@</h1>
      {rows}
      <form><textbox{#Body}/><submit action={add} value="Add"/></form>
    </body>
  </xml>
and add (r : {Body : string}) : transaction page =
  id <- nextval ids;
  dml (INSERT INTO item (Id, Body) VALUES ({[id]}, {[r.Body]}));
  main ()
and drop (id : int) (u : unit) : transaction page =
  dml (DELETE FROM item WHERE Id = {[id]});
  main ()
'''
SIGNATURE = "val main : unit -> transaction page\n"
TESTS = '''\
# Run by `urweb test @NAME@ @NAME@.test`. The tables are empty at the beginning.
GET /@TITLE@/main
is 200
has <h1>@TITLE@</h1>
not Drop

POST /@TITLE@/add Body='milk & honey'
is 200
has milk &amp; honey

POST /@TITLE@/drop/1
is 200
not milk
'''
README = '''\
# @TITLE@
`urweb dev @NAME@` serves it on http://127.0.0.1:8080 while you write it, `urweb test @NAME@ @NAME@.test` tries it.
@NAME@.ur is the program, @NAME@.urs names the pages that a browser may ask for, @NAME@.urp is the project.
`urweb serve @NAME@ --port 8080 --db @NAME@.db` keeps the tables in a file.
'''


def main(words: Sequence[str]) -> int:
    parser = argparse.ArgumentParser(prog="urweb new", description="Makes a folder with an application to begin with.")
    parser.add_argument("name", metavar="NAME", help="the folder; its last part is the name of the module: a small letter, then letters, digits and _")
    return make(Path(parser.parse_args(words).name))


def make(folder: Path) -> int:
    """Makes the folder and its files; nothing where it is there already."""
    name = folder.name
    if not NAME.fullmatch(name):
        print(f"urweb: {name!r} is no name of a module: a small letter, then letters, digits and _", file=sys.stderr)
        return 1
    try:
        folder.mkdir()
        for ending, text in files().items():
            (folder / (ending if ending == "README.md" else name + ending)).write_text(filled(text, name), encoding="utf-8")
    except FileExistsError:
        print(f"urweb: {folder} is there already, and stays as it is", file=sys.stderr)
        return 1
    except OSError as fault:
        print(f"urweb: {folder} cannot be made: {fault.strerror}", file=sys.stderr)
        return 1
    print(f"{folder} is made: `urweb dev {folder}/{name}` serves it")
    return 0


def files() -> dict[str, str]:
    """Returns the texts of the files by their endings."""
    return {".urp": "@NAME@\n", ".ur": MODULE, ".urs": SIGNATURE, ".test": TESTS, "README.md": README}


def filled(text: str, name: str) -> str:
    return text.replace("@NAME@", name).replace("@TITLE@", name[:1].upper() + name[1:])
