"""The language server, asked by a client over pipes as an editor asks it."""
import json
import os
import select
import subprocess
import sys
import tempfile
import time
import unittest
from pathlib import Path
from typing import Any

import context
from urweb_companion import program

MAIN = """fun main () : transaction page =
  return <xml><body>%s</body></xml>
"""


class Client:
    """An editor: it sends notes and requests, and keeps what is shown of each file."""

    def __init__(self) -> None:
        words = [sys.executable, context.TOP / "companion", "lsp"]
        self.process = subprocess.Popen(words, stdin=subprocess.PIPE, stdout=subprocess.PIPE, env={**os.environ, program.VARIABLE: str(program.find())})
        self.number = 0
        self.shown: dict[str, list[dict[str, Any]]] = {}

    def send(self, *messages: dict[str, Any]) -> None:
        """Sends messages, so that no time is between them."""
        self.raw(*(json.dumps({"jsonrpc": "2.0", **message}).encode() for message in messages))

    def raw(self, *bodies: bytes) -> None:
        assert self.process.stdin
        self.process.stdin.write(b"".join(b"Content-Length: %d\r\n\r\n%s" % (len(body), body) for body in bodies))
        self.process.stdin.flush()

    def note(self, method: str, said: Any = None) -> None:
        self.send({"method": method, "params": said})

    def read(self) -> dict[str, Any]:
        """Reads the next message, and keeps it where it shows something."""
        out = self.process.stdout
        assert out
        size = 0
        while (line := out.readline()) != b"\r\n":
            if not line:
                raise EOFError
            size = int(line.split(b":")[1])
        message: dict[str, Any] = json.loads(out.read(size))
        if message.get("method") == "textDocument/publishDiagnostics":
            self.shown[message["params"]["uri"]] = message["params"]["diagnostics"]
        return message

    def ask(self, method: str, said: Any = None) -> dict[str, Any]:
        """Returns the answer of a request; what is shown before it is kept."""
        self.number += 1
        self.send({"id": self.number, "method": method, "params": said})
        while (message := self.read()).get("id") != self.number:
            pass
        return message

    def is_quiet(self, seconds: float) -> bool:
        assert self.process.stdout
        return not select.select([self.process.stdout], [], [], seconds)[0]

    def end(self) -> int:
        self.ask("shutdown")
        self.note("exit")
        return self.close()

    def close(self) -> int:
        """Ends the input, reads what is still there, and returns the status."""
        self.process.communicate(timeout=300)
        return self.process.returncode


class Lsp(unittest.TestCase):
    def setUp(self) -> None:
        made = tempfile.TemporaryDirectory()
        self.addCleanup(made.cleanup)
        self.folder = Path(made.name) / "a b é"
        self.folder.mkdir()
        self.write("m.urp", "m\n")
        self.client = Client()
        self.addCleanup(self.client.close)

    def write(self, name: str, text: str) -> Path:
        path = self.folder / name
        path.write_text(text, encoding="utf-8")
        return path

    def begin(self) -> None:
        answer = self.client.ask("initialize", {"processId": None, "rootUri": None, "capabilities": {}})
        self.assertEqual(answer["result"]["capabilities"]["textDocumentSync"]["change"], 1)
        self.client.note("initialized", {})

    def open(self, path: Path, version: int = 1) -> str:
        text = path.read_text(encoding="utf-8")
        self.client.note("textDocument/didOpen", {"textDocument": {"uri": path.as_uri(), "languageId": "urweb", "version": version, "text": text}})
        return path.as_uri()

    def change(self, uri: str, *texts: str) -> None:
        """Sends changes at once."""
        self.client.send(*({"method": "textDocument/didChange",
                            "params": {"textDocument": {"uri": uri, "version": version}, "contentChanges": [{"text": text}]}}
                           for version, text in enumerate(texts, 2)))

    def hover(self, uri: str, line: int, character: int) -> Any:
        return self.client.ask("textDocument/hover", {"textDocument": {"uri": uri}, "position": {"line": line, "character": character}})["result"]

    def test_a_refusal_stands_at_its_place_in_units_of_utf_16(self) -> None:
        self.begin()
        uri = self.open(self.write("m.ur", MAIN % "😀é {[nane]}"))
        self.assertEqual(self.client.read()["params"]["version"], 1)
        found, = self.client.shown[uri]
        self.assertEqual((found["code"], found["severity"]), ("E07", 1))
        self.assertEqual(found["range"], {"start": {"line": 1, "character": 26}, "end": {"line": 1, "character": 30}})
        self.assertTrue(found["message"].startswith("found nane, "), found["message"])
        self.assertTrue(found["codeDescription"]["href"].endswith("docs/REFUSALS.md#e07"))
        self.assertEqual(self.client.end(), 0)

    def test_a_pause_in_typing_shows_what_is_not_saved(self) -> None:
        self.begin()
        path = self.write("m.ur", MAIN % "ok")
        uri = self.open(path)
        self.client.read()
        self.assertEqual(self.client.shown[uri], [])
        begun = time.monotonic()
        self.change(uri, MAIN % "<b>", MAIN % "<b>{", MAIN % "<td/>")
        message = self.client.read()
        self.assertGreater(time.monotonic() - begun, 0.25)
        self.assertEqual(message["params"]["version"], 4)
        self.assertEqual([it["code"] for it in self.client.shown[uri]], ["E13"])
        self.assertTrue(self.client.is_quiet(0.6), "three changes without a pause are looked at once")
        self.assertEqual(path.read_text(encoding="utf-8"), MAIN % "ok")
        self.assertIn("`td` in `tr`", self.hover(uri, 1, 22)["contents"]["value"])
        self.assertIsNone(self.hover(uri, 0, 2))

    def test_a_save_shows_the_files_as_they_are(self) -> None:
        self.begin()
        path = self.write("m.ur", MAIN % "ok")
        uri = self.open(path)
        self.client.read()
        path.write_text(MAIN % "{[1 +]}", encoding="utf-8")
        said = {"textDocument": {"uri": uri, "version": 2}, "contentChanges": [{"text": MAIN % "{[1 +]}"}]}
        self.client.send({"method": "textDocument/didChange", "params": said},
                         {"method": "textDocument/didSave", "params": {"textDocument": {"uri": uri}}})
        self.client.read()
        self.assertEqual([it["code"] for it in self.client.shown[uri]], ["E05"])
        self.assertTrue(self.client.is_quiet(0.6), "a save is not looked at again after the pause")

    def test_another_file_of_the_project_shows_its_refusal_and_loses_it(self) -> None:
        self.begin()
        self.write("m.urp", "low\nm\n")
        low = self.write("low.ur", "val a : int = \"x\"\n")
        uri = self.open(self.write("m.ur", MAIN % "{[Low.a]}"))
        self.client.read()
        self.client.read()
        self.assertEqual([it["code"] for it in self.client.shown[low.as_uri()]], ["E10"])
        self.assertEqual(self.client.shown[uri], [])
        low.write_text("val a : int = 1\n", encoding="utf-8")
        self.client.note("textDocument/didSave", {"textDocument": {"uri": uri}})
        self.client.read()
        self.assertEqual(self.client.shown[low.as_uri()], [])

    def test_a_refusal_without_a_place_stands_on_first_lines(self) -> None:
        self.begin()
        text = "table t : {A : int}\nfun main () : transaction page =\n  dml (DELETE FROM t); return <xml><body/></xml>\n"
        uri = self.open(self.write("m.ur", text))
        self.client.read()
        self.client.read()
        for shown in (uri, (self.folder / "m.urp").as_uri()):
            found, = self.client.shown[shown]
            self.assertEqual((found["code"], found["range"]["start"]), ("E14", {"line": 0, "character": 0}))
        self.client.note("textDocument/didClose", {"textDocument": {"uri": uri}})
        self.client.read()
        self.client.read()
        self.assertEqual(list(self.client.shown.values()), [[], []])

    def test_places_of_no_width_are_widened_and_ends_of_files_are_places(self) -> None:
        self.begin()
        uri = self.open(self.write("m.ur", "val a : bool = True & False\n"))
        self.client.read()
        self.assertEqual(self.client.shown[uri][0]["range"], {"start": {"line": 0, "character": 20}, "end": {"line": 0, "character": 21}})
        self.change(uri, "val a : int = 3 +\n")
        self.client.read()
        found, = self.client.shown[uri]
        self.assertEqual((found["code"], found["range"]["start"]), ("E05", {"line": 0, "character": 16}))
        self.assertEqual(found["range"]["end"], {"line": 0, "character": 17})

    def test_wrong_use(self) -> None:
        self.assertEqual(self.client.ask("textDocument/hover", {})["error"]["code"], -32002)
        self.client.raw(b"{no json")
        self.assertEqual(self.client.read()["error"]["code"], -32700)
        self.begin()
        self.assertEqual(self.client.ask("textDocument/rename", {})["error"]["code"], -32601)
        self.assertEqual(self.client.ask("textDocument/hover", {"textDocument": 3})["error"]["code"], -32602)
        self.client.note("textDocument/didChange", {})
        self.assertEqual(self.client.read()["method"], "window/logMessage")
        self.client.note("textDocument/didOpen", {"textDocument": {"uri": "untitled:1", "version": 1, "text": "x"}})
        self.client.note("$/setTrace", {"value": "off"})
        self.assertTrue(self.client.is_quiet(0.4))
        self.client.note("exit")
        self.assertEqual(self.client.close(), 1)

    def test_a_head_without_a_length_and_an_end_of_input_end_the_server(self) -> None:
        stdin = self.client.process.stdin
        assert stdin
        stdin.write(b"Length: 3\r\n\r\n")
        stdin.flush()
        self.assertEqual(self.client.read()["error"]["code"], -32700)
        self.assertEqual(self.client.close(), 1)
        other = Client()
        other.ask("initialize", {})
        other.ask("shutdown")
        self.assertEqual(other.ask("textDocument/hover", {})["error"]["code"], -32600)
        self.assertEqual(other.close(), 0)

    def test_a_module_without_a_project_file_says_so(self) -> None:
        self.begin()
        os.remove(self.folder / "m.urp")
        uri = self.open(self.write("m.ur", "nothing"))
        self.client.read()
        found, = self.client.shown[uri]
        self.assertEqual(found["severity"], 3)
        self.assertIn("no project file", found["message"])


if __name__ == "__main__":
    unittest.main()
