"use strict";
// Runs the extension for Visual Studio Code over a stand-in for the editor, with the real language server.
//
//     node extension.js EXTENSION FOLDER
//
// FOLDER has game.lf. The last line is 'all is well'; what is not ends it with status 1.

const assert = require("assert");
const fs = require("fs");
const Module = require("module");
const path = require("path");

const [folder, texts] = process.argv.slice(2).map((it) => path.resolve(it));
const SECONDS = 60;

// The stand-in: as much of the editor as the extension uses.

class Position {
  constructor(line, character) { Object.assign(this, { line, character }); }
}
class Range {
  constructor(start, end) { Object.assign(this, { start, end }); }
}
const kept = (...names) => class {
  constructor(...given) { names.forEach((name, place) => (this[name] = given[place])); }
};
class WorkspaceEdit {
  constructor() { this.edits = {}; }
  set(uri, edits) { this.edits[uri.toString()] = edits; }
}
class Uri {
  static parse(text) {
    return Object.assign(new Uri(), { text, fsPath: decodeURIComponent(text.replace(/^file:\/\//, "")) });
  }
  static file(name) { return Uri.parse(`file://${name}`); }
  toString() { return this.text; }
}
const registered = {};
const commands = {};
const listeners = {};
const faults = new Map();
const told = [];
const panels = [];
const register = (name) => (selector, provider) => {
  assert.deepStrictEqual(selector, { language: "warpd" });
  registered[name] = provider;
  return { dispose() {} };
};
const listen = (name) => (listener) => {
  listeners[name] = listener;
  return { dispose() {} };
};
const languages = {
  createDiagnosticCollection: () => ({
    set: (uri, list) => faults.set(uri.toString(), list), clear: () => faults.clear(), dispose() {},
  }),
};
const kinds = [
  "Hover", "Definition", "Reference", "DocumentHighlight", "DocumentSymbol", "Rename", "DocumentFormattingEdit",
  "CodeActions", "CompletionItem",
];
for (const name of kinds) languages[`register${name}Provider`] = register(name);
const workspace = {
  textDocuments: [], workspaceFolders: [{ uri: Uri.file(texts), name: "texts" }],
  getConfiguration: () => ({ get: () => "" }),
  createFileSystemWatcher: (pattern) => {
    assert.strictEqual(pattern, "**/*.lf");
    const watched = { dispose() {} };
    for (const name of ["Create", "Change", "Delete"]) watched[`onDid${name}`] = listen(`File${name}`);
    return watched;
  },
};
for (const name of ["Open", "Change", "Close", "Save"]) workspace[`onDid${name}TextDocument`] = listen(name);
const vscode = {
  Position, Range, Uri, WorkspaceEdit, workspace, languages,
  Location: kept("uri", "range"), Diagnostic: kept("range", "message", "severity"), TextEdit: kept("range", "newText"),
  DocumentSymbol: kept("name", "detail", "kind", "range", "selectionRange"), CompletionItem: kept("label", "kind"),
  CodeAction: kept("title", "kind"), CodeActionKind: { QuickFix: "quickfix" },
  MarkdownString: kept("value"), Hover: kept("contents", "range"), DocumentHighlight: kept("range"),
  DiagnosticSeverity: { Error: 0, Warning: 1, Information: 2 }, ViewColumn: { Beside: -2 },
  commands: { registerCommand: (name, does) => { commands[name] = does; return { dispose() {} }; } },
  window: {
    activeTextEditor: null, showErrorMessage: (text) => told.push(text),
    createWebviewPanel: () => {
      const panel = { webview: { html: "" }, onDidDispose() {} };
      panels.push(panel);
      return panel;
    },
  },
};
const load = Module._load;
Module._load = (name, ...rest) => (name === "vscode" ? vscode : load(name, ...rest));

class Document {
  constructor(name) {
    this.uri = Uri.file(path.join(texts, name));
    this.languageId = "warpd";
    this.version = 1;
    this.text = fs.readFileSync(this.uri.fsPath, "utf8");
  }
  getText() { return this.text; }
  /** Puts a text in the place of some letters of a line. */
  change(line, start, end, text) {
    const lines = this.text.split("\n");
    lines[line] = lines[line].slice(0, start) + text + lines[line].slice(end);
    this.text = lines.join("\n");
    this.version++;
    const range = new Range(new Position(line, start), new Position(line, end));
    listeners.Change({ document: this, contentChanges: [{ range, text }] });
  }
}

async function until(what, condition) {
  for (let turn = 0; turn < SECONDS * 20; turn++) {
    if (condition()) return;
    await new Promise((done) => setTimeout(done, 50));
  }
  assert.fail(`${what} never came; ${told}`);
}

const shown = (range) => `${range.start.line + 1}:${range.start.character + 1}-${range.end.character + 1}`;

async function main() {
  const extension = require(folder);
  const document = new Document("game.lf");
  const name = document.uri.toString();
  workspace.textDocuments.push(document);
  await extension.activate({ subscriptions: [] });
  assert.deepStrictEqual(told, []);

  await until("a fault", () => (faults.get(name) || []).length);
  const [fault] = faults.get(name);
  assert.strictEqual(`${shown(fault.range)} ${fault.severity} ${fault.message} ${fault.source}`,
    "5:20-24 0 `live` is not declared here\ndid you mean `lives`? warpd");
  const [fix, ...others] = await registered.CodeActions.provideCodeActions(document, fault.range);
  assert.deepStrictEqual([fix.title, fix.edit.edits[name].map((it) => `${shown(it.range)} ${it.newText}`), others],
    ["write `lives`", ["5:20-24 lives"], []]);
  document.change(4, 19, 23, "lives");
  await until("no fault", () => faults.get(name).every((it) => it.severity !== 0));

  const at = new Position(4, 20);
  const hover = await registered.Hover.provideHover(document, at);
  assert.match(hover.contents.value, /state lives: int = 3;[^]*variable 0, `p1.lives`/);
  const definition = await registered.Definition.provideDefinition(document, at);
  assert.strictEqual(`${definition.uri} ${shown(definition.range)}`, `${name} 3:9-14`);
  const uses = await registered.Reference.provideReferences(document, at, { includeDeclaration: false });
  assert.deepStrictEqual(uses.map((it) => shown(it.range)), ["5:20-25", "8:39-44"]);
  const marks = await registered.DocumentHighlight.provideDocumentHighlights(document, at);
  assert.deepStrictEqual(marks.map((it) => shown(it.range)), ["3:9-14", "5:20-25", "8:39-44"]);
  const symbols = await registered.DocumentSymbol.provideDocumentSymbols(document);
  assert.deepStrictEqual(symbols.map((it) => [it.name, it.children.map((each) => each.name)]),
    [["Player", ["lives", "hit", "reaction(hit)"]], ["main", ["p1"]], ["a", []]]);
  const proposals = await registered.CompletionItem.provideCompletionItems(document, at);
  assert.ok(["lives", "hit", "let", "put"].every((it) => proposals.some((each) => each.label === it)));

  const range = await registered.Rename.prepareRename(document, at);
  assert.strictEqual(`${shown(range.range)} ${range.placeholder}`, "5:20-25 lives");
  const edit = await registered.Rename.provideRenameEdits(document, at, "hearts");
  const written = edit.edits[name].map((it) => `${shown(it.range)} ${it.newText}`).sort();
  assert.deepStrictEqual(written, ["3:9-14 hearts", "5:20-25 hearts", "8:39-44 hearts"]);
  await assert.rejects(registered.Rename.provideRenameEdits(document, at, "hit"), /`hit` is taken: it is an input/);
  const none = await registered.Hover.provideHover(document, new Position(5, 1));
  assert.strictEqual(none, null);

  fs.writeFileSync(document.uri.fsPath, document.text);
  vscode.window.activeTextEditor = { document };
  commands["warpd.picture"]();
  await until("a picture", () => panels[0].webview.html.includes("<svg"));
  document.change(4, 19, 25, "livs ");
  fs.writeFileSync(document.uri.fsPath, document.text);
  listeners.Save(document);
  await until("the fault in the place of the picture", () => panels[0].webview.html.includes("`livs` is not declared"));

  document.change(4, 19, 24, "lives");
  document.change(0, 25, 25, ' import Away from "away.lf"');
  const isAway = (it) => /`away.lf` cannot be read/.test(it.message);
  await until("an import that is not there", () => faults.get(name).some(isAway));
  fs.writeFileSync(path.join(texts, "away.lf"), "reactor Away { }\n");
  listeners.FileCreate(Uri.file(path.join(texts, "away.lf")));
  await until("the import", () => faults.get(name).every((it) => it.severity !== 0));
  document.change(4, 19, 24, "livs ");

  await commands["warpd.restart"]();
  await until("the fault again", () => (faults.get(name) || []).length);
  listeners.Close(document);
  await until("no fault of a text that is closed", () => !(faults.get(name) || []).length);
  await extension.deactivate();
  assert.deepStrictEqual(told, []);
  console.log("all is well");
}

main().catch((error) => {
  console.log(error);
  process.exit(1);
});
