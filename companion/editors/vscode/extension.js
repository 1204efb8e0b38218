// The client of the language server (`urweb lsp`), over VS Code's own interface and Node's, without any library.
"use strict";
const childProcess = require("child_process");
const fs = require("fs");
const path = require("path");
const vscode = require("vscode");

const LANGUAGES = ["urweb", "urweb-project"];
const STARTS_AT_MOST = 5;

// The script to run: the one of the settings, the one of the repository that this folder stands in, or the one on the path.
function command() {
  const set = vscode.workspace.getConfiguration("urweb").get("command");
  const near = path.resolve(__dirname, "../../../urweb");
  return set || (fs.existsSync(near) ? near : "urweb");
}

// One server: requests with their answers, and notes in both directions.
class Connection {
  constructor(onNote, onEnd) {
    this.onNote = onNote;
    this.waiting = new Map();
    this.number = 0;
    this.data = Buffer.alloc(0);
    this.child = childProcess.spawn(command(), ["lsp"], { stdio: ["pipe", "pipe", "ignore"] });
    this.child.stdin.on("error", () => {});
    this.child.stdout.on("data", (piece) => this.take(piece));
    this.child.on("error", (error) => onEnd(error.message));
    this.child.on("exit", (status) => onEnd(`status ${status}`));
  }

  send(message) {
    const body = Buffer.from(JSON.stringify({ jsonrpc: "2.0", ...message }));
    this.child.stdin.write(`Content-Length: ${body.length}\r\n\r\n`);
    this.child.stdin.write(body);
  }

  note(method, params) {
    this.send({ method, params });
  }

  ask(method, params) {
    const id = ++this.number;
    this.send({ id, method, params });
    return new Promise((resolve) => this.waiting.set(id, resolve));
  }

  // Takes bytes, and hands on each message that is whole.
  take(piece) {
    this.data = Buffer.concat([this.data, piece]);
    for (;;) {
      const end = this.data.indexOf("\r\n\r\n");
      const length = end < 0 ? null : /content-length: *(\d+)/i.exec(this.data.toString("ascii", 0, end));
      const whole = length ? end + 4 + Number(length[1]) : Infinity;
      if (this.data.length < whole) return;
      this.hand(JSON.parse(this.data.toString("utf8", end + 4, whole)));
      this.data = this.data.subarray(whole);
    }
  }

  hand(message) {
    if (message.method) return this.onNote(message);
    const resolve = this.waiting.get(message.id);
    this.waiting.delete(message.id);
    if (resolve) resolve(message.result);
  }
}

function rangeOf(range) {
  return new vscode.Range(range.start.line, range.start.character, range.end.line, range.end.character);
}

function diagnosticOf(said) {
  const severity = said.severity === 1 ? vscode.DiagnosticSeverity.Error : vscode.DiagnosticSeverity.Information;
  const made = new vscode.Diagnostic(rangeOf(said.range), said.message, severity);
  made.source = said.source;
  if (said.code) made.code = { value: said.code, target: vscode.Uri.parse(said.codeDescription.href) };
  return made;
}

// What is shown, and the server behind it, which is started anew where it ends by itself.
class Client {
  constructor() {
    this.shown = vscode.languages.createDiagnosticCollection("urweb");
    this.log = vscode.window.createOutputChannel("Ur/Web");
    this.starts = 0;
    this.isOver = false;
    this.start();
  }

  start() {
    this.starts += 1;
    this.connection = new Connection((message) => this.heard(message), (why) => this.ended(why));
    this.ready = this.connection.ask("initialize", { processId: process.pid, rootUri: null, capabilities: {} });
    this.connection.note("initialized", {});
    vscode.workspace.textDocuments.forEach((document) => this.opened(document));
  }

  ended(why) {
    if (this.isOver) return;
    this.log.appendLine(`urweb lsp has ended: ${why}`);
    this.connection = null;
    if (this.starts < STARTS_AT_MOST) setTimeout(() => this.isOver || this.connection || this.start(), 1000);
  }

  heard(message) {
    if (message.method === "textDocument/publishDiagnostics") {
      this.shown.set(vscode.Uri.parse(message.params.uri), message.params.diagnostics.map(diagnosticOf));
    } else if (message.method === "window/logMessage") {
      this.log.appendLine(message.params.message);
    }
  }

  // Sends a note of a document that is one of ours.
  tell(method, document, params) {
    if (this.connection && LANGUAGES.includes(document.languageId) && document.uri.scheme === "file") this.connection.note(method, params);
  }

  opened(document) {
    const textDocument = { uri: document.uri.toString(), languageId: document.languageId, version: document.version, text: document.getText() };
    this.tell("textDocument/didOpen", document, { textDocument });
  }

  changed(document) {
    const textDocument = { uri: document.uri.toString(), version: document.version };
    this.tell("textDocument/didChange", document, { textDocument, contentChanges: [{ text: document.getText() }] });
  }

  saved(document) {
    this.tell("textDocument/didSave", document, { textDocument: { uri: document.uri.toString() } });
  }

  closed(document) {
    this.tell("textDocument/didClose", document, { textDocument: { uri: document.uri.toString() } });
  }

  async hover(document, position) {
    if (!this.connection) return null;
    const at = { line: position.line, character: position.character };
    const said = await this.connection.ask("textDocument/hover", { textDocument: { uri: document.uri.toString() }, position: at });
    return said ? new vscode.Hover(new vscode.MarkdownString(said.contents.value), rangeOf(said.range)) : null;
  }

  async dispose() {
    this.isOver = true;
    if (!this.connection) return;
    await this.connection.ask("shutdown", null);
    this.connection.note("exit", null);
  }
}

let client = null;

function activate(context) {
  client = new Client();
  context.subscriptions.push(
    client.shown,
    client.log,
    vscode.workspace.onDidOpenTextDocument((document) => client.opened(document)),
    vscode.workspace.onDidChangeTextDocument((event) => client.changed(event.document)),
    vscode.workspace.onDidSaveTextDocument((document) => client.saved(document)),
    vscode.workspace.onDidCloseTextDocument((document) => client.closed(document)),
    vscode.languages.registerHoverProvider(LANGUAGES, { provideHover: (document, position) => client.hover(document, position) })
  );
}

function deactivate() {
  return client ? client.dispose() : undefined;
}

module.exports = { activate, deactivate };
