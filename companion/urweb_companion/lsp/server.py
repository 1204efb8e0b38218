"""What the language server answers: texts come, refusals go, and a hover shows what to do."""
import time
from collections.abc import Callable
from dataclasses import dataclass
from pathlib import Path
from typing import Any
from urllib.parse import unquote, urlsplit

from urweb_companion import program
from urweb_companion.lsp import findings
from urweb_companion.lsp.findings import Finding
from urweb_companion.lsp.wire import Broken, Message

PAUSE_SECONDS = 0.3
PARSE_ERROR, INVALID_REQUEST, NO_METHOD, INVALID_PARAMS, NOT_BEGUN = -32700, -32600, -32601, -32602, -32002
ERROR, INFORMATION = 1, 3


@dataclass
class Document:
    """A text that is open in the editor."""

    uri: str
    version: int | None
    text: str
    is_changed: bool


def path_of(uri: str) -> Path | None:
    """Returns the path of a file's address, None for one of another sort."""
    parts = urlsplit(uri)
    return Path(unquote(parts.path)) if parts.scheme == "file" else None


def is_saved(path: Path, text: str) -> bool:
    """Whether the file has this text, a mark of byte order aside."""
    try:
        return path.read_bytes().decode("utf-8-sig") == text
    except (OSError, UnicodeDecodeError):
        return False


def range_of(start: findings.Position, end: findings.Position) -> Message:
    return {"start": {"line": start[0], "character": start[1]}, "end": {"line": end[0], "character": end[1]}}


class Server:
    """One editor's texts, and what was last shown of each folder."""

    def __init__(self, send: Callable[[Message], None]) -> None:
        self.send = send
        self.is_begun = self.is_shut = self.is_over = False
        self.documents: dict[Path, Document] = {}
        self.shown: dict[Path, dict[Path, list[Finding]]] = {}
        self.due: dict[Path, float] = {}
        self.requests: dict[str, Callable[[Any], Any]] = {
            "initialize": self.initialize, "shutdown": self.shutdown, "textDocument/hover": self.hover}
        self.notes: dict[str, Callable[[Any], None]] = {
            "textDocument/didOpen": self.opened, "textDocument/didChange": self.changed,
            "textDocument/didSave": self.saved, "textDocument/didClose": self.closed}

    # ---- messages

    def take(self, message: Message | Broken) -> None:
        """Answers a request, or does what a note says. What is not known is refused where it is a request, and else passed over."""
        if isinstance(message, Broken):
            self.send({"id": None, "error": {"code": PARSE_ERROR, "message": str(message)}})
            return
        method, asked = message.get("method"), message.get("params")
        if "id" not in message:
            self.note(str(method), asked)
        elif method is not None:
            self.send({"id": message["id"], **self.answer(str(method), asked)})

    def answer(self, method: str, asked: Any) -> Message:
        """Returns the result of a request, or its error."""
        if self.is_shut:
            return {"error": {"code": INVALID_REQUEST, "message": "the server is shut"}}
        if not self.is_begun and method != "initialize":
            return {"error": {"code": NOT_BEGUN, "message": "initialize comes first"}}
        if method not in self.requests:
            return {"error": {"code": NO_METHOD, "message": f"no method {method}"}}
        try:
            return {"result": self.requests[method](asked)}
        except (KeyError, TypeError, ValueError, IndexError) as error:
            return {"error": {"code": INVALID_PARAMS, "message": f"{method}: {error}"}}

    def note(self, method: str, said: Any) -> None:
        """Does what a note says. One of another form is reported to the editor's log."""
        if method == "exit":
            self.is_over = True
        elif self.is_begun and not self.is_shut and method in self.notes:
            try:
                self.notes[method](said)
            except (KeyError, TypeError, ValueError, IndexError) as error:
                self.log(f"{method}: {error!r}")

    def log(self, text: str) -> None:
        self.send({"method": "window/logMessage", "params": {"type": ERROR, "message": f"urweb: {text}"}})

    # ---- requests

    def initialize(self, asked: Any) -> Message:
        self.is_begun = True
        sync = {"openClose": True, "change": 1, "save": {"includeText": False}}
        return {"capabilities": {"positionEncoding": "utf-16", "textDocumentSync": sync, "hoverProvider": True},
                "serverInfo": {"name": "urweb lsp"}}

    def shutdown(self, asked: Any) -> None:
        self.is_shut = True

    def hover(self, asked: Any) -> Message | None:
        """Returns the section of the document for the refusal that stands at a place."""
        path = path_of(asked["textDocument"]["uri"])
        at = (asked["position"]["line"], asked["position"]["character"])
        for found in self.shown.get(path.parent, {}).get(path, []) if path else []:
            if found.covers(at):
                return {"contents": {"kind": "markdown", "value": found.help}, "range": range_of(found.start, found.end)}
        return None

    # ---- texts

    def opened(self, said: Any) -> None:
        it = said["textDocument"]
        path = path_of(it["uri"])
        if path:
            self.documents[path] = Document(it["uri"], it.get("version"), it["text"], not is_saved(path, it["text"]))
            self.check(path.parent)

    def changed(self, said: Any) -> None:
        """Takes a new text, which is looked at when no other one comes for a while."""
        path = path_of(said["textDocument"]["uri"])
        document = self.documents.get(path) if path else None
        if path and document and said["contentChanges"]:
            document.text = said["contentChanges"][-1]["text"]
            document.version = said["textDocument"].get("version")
            document.is_changed = True
            self.due[path.parent] = time.monotonic() + PAUSE_SECONDS

    def saved(self, said: Any) -> None:
        path = path_of(said["textDocument"]["uri"])
        if path:
            if path in self.documents:
                self.documents[path].is_changed = False
            self.check(path.parent)

    def closed(self, said: Any) -> None:
        """Forgets a text. Where it was the last one of its folder, what was shown there goes."""
        path = path_of(said["textDocument"]["uri"])
        if path is None:
            return
        document = self.documents.pop(path, None)
        if any(other.parent == path.parent for other in self.documents):
            self.check(path.parent)
        else:
            self.due.pop(path.parent, None)
            for shown in {*self.shown.pop(path.parent, {}), path}:
                self.publish(shown, [], document.uri if document and shown == path else None)

    # ---- refusals

    def pause(self) -> float | None:
        """Returns for how long nothing is to be done, None where that is until a message comes."""
        return max(0.0, min(self.due.values()) - time.monotonic()) if self.due else None

    def check_due(self) -> None:
        """Looks at the folders in which nobody has typed for a while."""
        now = time.monotonic()
        for folder in [folder for folder, at in self.due.items() if at <= now]:
            self.check(folder)

    def check(self, folder: Path) -> None:
        """Asks the program about a folder, and shows what it says in the place of what was shown before."""
        self.due.pop(folder, None)
        texts = {path: it.text for path, it in self.documents.items() if path.parent == folder and it.is_changed}
        opened = {path for path in self.documents if path.parent == folder}
        found: dict[Path, list[Finding]] = {}
        try:
            for it in findings.of_folder(folder, texts, opened):
                found.setdefault(it.path, []).append(it)
        except (program.NoProgram, OSError) as error:
            self.log(str(error))
            return
        before = self.shown.get(folder, {})
        self.shown[folder] = found
        is_without = not findings.has_project(folder, texts)
        for path in sorted({*before, *found, *opened}):
            self.publish(path, self.without_project(path) if is_without else [self.diagnostic(it) for it in found.get(path, [])])

    def without_project(self, path: Path) -> list[Message]:
        """Says on the first line of a module that no project file stands beside it."""
        text = f"no project file (.urp) stands in {path.parent}, so nothing is looked at"
        return [{"range": range_of((0, 0), (0, 0)), "severity": INFORMATION, "source": "urweb", "message": text}]

    def diagnostic(self, found: Finding) -> Message:
        document = program.top() / "docs" / "REFUSALS.md"
        return {"range": range_of(found.start, found.end), "severity": ERROR, "source": "urweb", "code": found.refusal.code,
                "codeDescription": {"href": f"{document.as_uri()}#{found.refusal.code.lower()}"}, "message": found.message}

    def publish(self, path: Path, diagnostics: list[Message], uri: str | None = None) -> None:
        """Shows these at a file, in the place of what was shown there."""
        document = self.documents.get(path)
        shown: Message = {"uri": document.uri if document else uri or path.as_uri(), "diagnostics": diagnostics}
        if document and document.version is not None:
            shown["version"] = document.version
        self.send({"method": "textDocument/publishDiagnostics", "params": shown})
