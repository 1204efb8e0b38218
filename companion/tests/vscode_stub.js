// Runs the extension over a stand-in for VS Code: it opens a module, asks for a hover, changes the text, and prints what is shown as a line of JSON each.
"use strict";
const fs = require("fs");
const Module = require("module");
const { pathToFileURL } = require("url");

const [extension, file, text, line, character] = process.argv.slice(2);
const listeners = {};
let onShown = () => {};

class Uri {
  constructor(text) {
    this.text = text;
    this.scheme = text.slice(0, text.indexOf(":"));
  }
  toString() {
    return this.text;
  }
  static parse(text) {
    return new Uri(text);
  }
}

const on = (name) => (listener) => {
  listeners[name] = listener;
  return { dispose() {} };
};
const document = { uri: new Uri(pathToFileURL(file).href), languageId: "urweb", version: 1, text: fs.readFileSync(file, "utf8") };
document.getText = () => document.text;

const stub = {
  Uri,
  Range: class { constructor(...at) { this.at = at; } },
  Diagnostic: class { constructor(range, message, severity) { Object.assign(this, { range, message, severity }); } },
  Hover: class { constructor(contents, range) { Object.assign(this, { contents, range }); } },
  MarkdownString: class { constructor(value) { this.value = value; } },
  DiagnosticSeverity: { Error: 0, Information: 2 },
  window: { createOutputChannel: () => ({ appendLine: (text) => console.error(text) }) },
  workspace: {
    textDocuments: [document],
    getConfiguration: () => ({ get: () => process.env.URWEB_SCRIPT || "" }),
    onDidOpenTextDocument: on("open"), onDidChangeTextDocument: on("change"), onDidSaveTextDocument: on("save"), onDidCloseTextDocument: on("close"),
  },
  languages: {
    createDiagnosticCollection: () => ({ set: (uri, found) => onShown(uri, found) }),
    registerHoverProvider: (languages, provider) => {
      listeners.hover = provider.provideHover;
      return { dispose() {} };
    },
  },
};

const load = Module._load;
Module._load = (name, ...rest) => (name === "vscode" ? stub : load(name, ...rest));
const { activate, deactivate } = require(extension);

function shown() {
  return new Promise((resolve) => {
    onShown = (uri, found) => resolve(found.map((it) => ({ code: it.code && it.code.value, at: it.range.at, severity: it.severity })));
  });
}

async function main() {
  const first = shown();
  activate({ subscriptions: [] });
  console.log(JSON.stringify(await first));
  const hover = await listeners.hover(document, { line: Number(line), character: Number(character) });
  console.log(JSON.stringify(hover && hover.contents.value));
  const second = shown();
  Object.assign(document, { text, version: 2 });
  listeners.change({ document });
  console.log(JSON.stringify(await second));
  await deactivate();
}

main();
