"""`routes`, `sites --places`, `new`, `help` and `version`, and why no page can be reached."""
import contextlib
import io
import os
import tempfile
import unittest
from pathlib import Path

import context
from refusal_cases import written
from runs import SCRIPT, ran
from urweb_companion import help as helping
from urweb_companion import new, places, reach, routes
from urweb_companion.program import Status, run


def setUpModule() -> None:
    os.chdir(context.TOP)


def printed(main: object, *words: str) -> tuple[int, str, str]:
    out, err = io.StringIO(), io.StringIO()
    with contextlib.redirect_stdout(out), contextlib.redirect_stderr(err):
        try:
            status = main(list(words))  # type: ignore[operator]
        except SystemExit as it:
            status = it.code
    return status, out.getvalue(), err.getvalue()


class Routes(unittest.TestCase):
    maxDiff = None

    def test_the_notes(self) -> None:
        status, out, err = printed(routes.main, "examples/notes")
        self.assertEqual((status, err), (0, ""))
        self.assertEqual(out, (
            "GET   /Main/list/{who : string}        examples/main.ur:4:5\n"
            "POST  /Main/add/{who : string}   Body  examples/main.ur:9:5\n"
            "POST  /Main/drop/{id : int}            examples/main.ur:13:5\n"
            "POST  /Main/move/{id : int}      To    examples/main.ur:16:5\n"))

    def test_all_routes_of_all_examples_are_found(self) -> None:
        for path in sorted(context.EXAMPLES.rglob("*.urp")):
            with self.subTest(path.name):
                checked = run(["check", str(path)])
                if path.parent.name == "13-refused":
                    self.assertEqual(checked.status, Status.REFUSED)
                    continue
                found = routes.routes(str(path))
                assert isinstance(found, list)
                self.assertEqual(f"ok {len({it.path for it in found})} routes\n", checked.text)

    def test_a_page_with_both_methods_types_by_name_and_a_checkbox(self) -> None:
        text = (
            "type who = string\ntype fields = {Body : string, Done : bool}\n"
            "fun main (n : int) (b : bool) (w : who) : transaction page =\n"
            "  return <xml><body><form><textbox{#Body}/><checkbox{#Done}/><submit action={save w}/></form>\n"
            "    <form><submit action={other}/></form><a link={other ()}>x</a></body></xml>\n"
            "and save (w : who) (r : fields) : transaction page = main 1 True w\n"
            "and other () : transaction page = return <xml><body></body></xml>\n")
        with written({"m.ur": text}) as folder:
            found = routes.routes(str(folder / "m"))
            assert isinstance(found, list)
            self.assertEqual([(it.method, it.path, it.fields) for it in found], [
                ("GET", "/M/main/{n : int}/{b : bool}/{w : string}", ""), ("POST", "/M/save/{w : string}", "Body [Done]"),
                ("GET", "/M/other", ""), ("POST", "/M/other", "")])

    def test_wrong_uses(self) -> None:
        self.assertEqual(printed(routes.main)[0], 2)
        status, out, err = printed(routes.main, "nothere")
        self.assertEqual((status, out), (2, "E02 nothere.urp:0-0 nothere.urp | \n"))
        self.assertIn("nothere.urp: E02 found no file", err)
        with written({"m.ur": "val a = 3\n"}) as folder:
            status, out, err = printed(routes.main, str(folder / "m"))
            self.assertEqual(status, 2)
            self.assertIn("a value has a type", err)


class Places(unittest.TestCase):
    def test_the_notes(self) -> None:
        status, out, err = printed(places.main, "examples/notes", "--places")
        self.assertEqual((status, err), (0, ""))
        self.assertEqual(out.splitlines()[:4], [
            "site 1 keys 1  examples/main.ur:5:19  SELECT note.Id, note.Body FROM note WHERE note.Owner = {[w..",
            "update 1 args 3  examples/main.ur:11:8  INSERT INTO note (Id, Owner, Body) VALUES ({[n]}, {[who]},..",
            "update 2 args 1  examples/main.ur:14:8  DELETE FROM note WHERE Id = {[id]}",
            "update 3 args 2  examples/main.ur:17:8  UPDATE note SET Owner = {[r.To]} WHERE Id = {[id]}"])
        self.assertEqual(out.splitlines()[4:], run(["sites", "examples/notes"]).text.splitlines()[4:])

    def test_statements_of_all_examples_are_placed(self) -> None:
        for path in sorted(context.EXAMPLES.rglob("*.urp")):
            with self.subTest(path.name):
                self.assertEqual(printed(places.main, str(path), "--places")[2] == "", path.parent.name != "13-refused")

    def test_places_come_in_order_of_modules(self) -> None:
        lib = "table t : {A : int}\nfun first () : transaction int = r <- oneRow (SELECT COUNT( * ) AS N FROM t); return r.N\n"
        main = "fun main () : transaction page = r <- oneRow (SELECT t.A FROM Lib.t WHERE T.A = 3); n <- Lib.first (); return <xml><body>{[n]}</body></xml>\n"
        with written({"m.urp": "lib\nm\n", "lib.ur": lib, "m.ur": main.replace("t.A FROM", "T.A FROM")}) as folder:
            _, out, err = printed(places.main, str(folder / "m"), "--places")
        self.assertEqual(err, "")
        self.assertIn("lib.ur:2:", out.splitlines()[0])
        self.assertIn("m.ur:1:", out.splitlines()[1])

    def test_wrong_uses(self) -> None:
        self.assertEqual(printed(places.main, "--places")[0], 1)
        self.assertEqual(printed(places.main, "nothere", "--places")[0], 2)
        self.assertEqual(printed(places.main, "a", "b", "--places")[0], 1)

    def test_by_the_script(self) -> None:
        self.assertEqual(ran(SCRIPT, ["sites", "--places", "examples/notes"]).stdout.decode(), printed(places.main, "examples/notes")[1])


class New(unittest.TestCase):
    def test_what_is_made_is_accepted(self) -> None:
        with tempfile.TemporaryDirectory() as name:
            status, out, _ = printed(new.main, f"{name}/todo")
            self.assertEqual(status, 0)
            self.assertEqual(sorted(it.name for it in Path(name, "todo").iterdir()), ["README.md", "todo.test", "todo.ur", "todo.urp", "todo.urs"])
            self.assertEqual(run(["check", f"{name}/todo/todo"]).text, "ok 3 routes\n")
            self.assertLessEqual(len(Path(name, "todo", "todo.ur").read_text().splitlines()), 23)
            self.assertEqual(len(Path(name, "todo", "README.md").read_text().splitlines()), 4)
            self.assertEqual(printed(new.main, f"{name}/todo")[0], 1)

    def test_wrong_uses(self) -> None:
        with tempfile.TemporaryDirectory() as name:
            for word in ("To-do", "Todo", "", ".", "to do"):
                self.assertEqual(printed(new.main, word and f"{name}/{word}")[0], 1)
            self.assertEqual(printed(new.main, f"{name}/no/todo")[0], 1)
            self.assertEqual(printed(new.main)[0], 2)
            self.assertEqual(list(Path(name).iterdir()), [])


class Help(unittest.TestCase):
    def test_words_commands_and_refusals(self) -> None:
        self.assertIn("  serve P --port n  serves a project on 127.0.0.1\n", printed(helping.main)[1])
        self.assertIn("--connections", printed(helping.main, "serve")[1])
        self.assertIn("usage: urweb routes", printed(helping.main, "routes")[1])
        self.assertIn("A cell of a table in a body.", printed(helping.main, "e13")[1])
        status, _, err = printed(helping.main, "srve")
        self.assertEqual((status, err), (1, "urweb: no such word: srve, is it serve?\n"))


class Reach(unittest.TestCase):
    def why(self, **files: str) -> str:
        with written({f"m.{ending}": text for ending, text in files.items()}) as folder:
            self.assertTrue(reach.is_unreached(str(folder / "m")))
            return reach.unreached(folder / "m").replace(f"{folder}/", "")

    def test_a_project_without_a_page_says_so(self) -> None:
        front = "urweb: no page can be reached, so each request is answered 404: "
        page = ": transaction page = return <xml><body></body></xml>\n"
        self.assertEqual(self.why(ur="fun f (n : int) : int = n\n"), f"{front}the main module m has no function with the result `transaction page`\n")
        self.assertEqual(self.why(ur=f"fun f () {page}", urs=""), f"{front}the signature m.urs names no page\n")
        self.assertEqual(self.why(ur=f"fun f (x : option int) {page}"), f"{front}f has the parameter x : option int, and those of an entry are int, string, bool or unit\n")
        self.assertEqual(self.why(ur=f"fun f [t :: Type] (x : int) {page}"), f"{front}f has a constructor parameter, and a page function has none\n")

    def test_a_project_with_a_page_says_nothing(self) -> None:
        self.assertEqual(reach.unreached(context.NOTES), "")


if __name__ == "__main__":
    unittest.main()
