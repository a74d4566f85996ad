"use strict";
// What Visual Studio Code shows of programs' texts. The language server, `warpd-compile --lsp`, says it.

const { execFile } = require("child_process");
const fs = require("fs");
const path = require("path");
const vscode = require("vscode");
const { Client } = require("./client.js");

const LANGUAGE = "warpd";
const WORDS = [".", "(", ":"];
let client = null;
let faults = null;
const pictures = new Map();

/** Where the compiler is: as it is set, in the checkout that has this folder, or on the path. */
function compiler() {
  const set = vscode.workspace.getConfiguration("warpd").get("compiler");
  const near = path.join(fs.realpathSync(__dirname), "..", "..", "python", "warpd-compile");
  return set || (fs.existsSync(near) ? near : "warpd-compile");
}

const isOurs = (document) => document.languageId === LANGUAGE;
const named = (document) => ({ uri: document.uri.toString() });
const place = (it) => ({ line: it.line, character: it.character });
const position = (it) => new vscode.Position(it.line, it.character);
const range = (it) => new vscode.Range(position(it.start), position(it.end));
const location = (it) => new vscode.Location(vscode.Uri.parse(it.uri), range(it.range));

function show(params) {
  const severities = [
    vscode.DiagnosticSeverity.Error, vscode.DiagnosticSeverity.Warning, vscode.DiagnosticSeverity.Information,
  ];
  const found = params.diagnostics.map((it) => {
    const one = new vscode.Diagnostic(range(it.range), it.message, severities[it.severity - 1]);
    one.source = it.source;
    return one;
  });
  faults.set(vscode.Uri.parse(params.uri), found);
}

async function start() {
  const command = compiler();
  const started = new Client(
    command, ["--lsp"],
    (method, params) => method === "textDocument/publishDiagnostics" && started === client && show(params),
    (text) => {
      if (started !== client) return;
      client = null;
      faults.clear();
      if (text) vscode.window.showErrorMessage(`warpd: ${text}`);
    });
  client = started;
  const folders = (vscode.workspace.workspaceFolders || []).map((it) => ({ uri: it.uri.toString(), name: it.name }));
  const given = { processId: process.pid, rootUri: null, capabilities: {}, workspaceFolders: folders };
  await started.request("initialize", given);
  started.notify("initialized", {});
  vscode.workspace.textDocuments.forEach(opened);
}

async function stop() {
  const old = client;
  client = null;
  faults.clear();
  if (old) await old.stop();
}

function opened(document) {
  if (!client || !isOurs(document)) return;
  const { version } = document;
  const textDocument = { ...named(document), languageId: LANGUAGE, version, text: document.getText() };
  client.notify("textDocument/didOpen", { textDocument });
}

function changed(event) {
  if (!client || !isOurs(event.document) || !event.contentChanges.length) return;
  const contentChanges = event.contentChanges.map((it) => ({
    range: { start: place(it.range.start), end: place(it.range.end) }, text: it.text,
  }));
  client.notify("textDocument/didChange", {
    textDocument: { ...named(event.document), version: event.document.version }, contentChanges,
  });
}

function note(method) {
  return (document) => client && isOurs(document) && client.notify(method, { textDocument: named(document) });
}

/** The answer to what is asked of a place; nothing where the server is not there or cannot say it. */
async function ask(method, document, at, more = {}) {
  if (!client) return null;
  const params = { textDocument: named(document), ...(at ? { position: place(at) } : {}), ...more };
  return client.request(`textDocument/${method}`, params);
}

/** A text that may not be open has changed; 1 to 3 say that it came, changed or went. */
function fileChanged(type) {
  return (uri) => {
    if (client) client.notify("workspace/didChangeWatchedFiles", { changes: [{ uri: uri.toString(), type }] });
  };
}

const quiet = (method) => async (document, at, more) => ask(method, document, at, more).catch(() => null);

function edits(list) {
  return (list || []).map((it) => new vscode.TextEdit(range(it.range), it.newText));
}

function workspaceEdit(it) {
  const made = new vscode.WorkspaceEdit();
  for (const [uri, list] of Object.entries(it ? it.changes : {})) made.set(vscode.Uri.parse(uri), edits(list));
  return made;
}

function symbol(it) {
  // The kinds of the protocol count from 1, those of the editor from 0.
  const ranges = [range(it.range), range(it.selectionRange)];
  const one = new vscode.DocumentSymbol(it.name, it.detail || "", it.kind - 1, ...ranges);
  one.children = (it.children || []).map(symbol);
  return one;
}

function proposal(it) {
  const one = new vscode.CompletionItem(it.label, it.kind - 1);
  one.detail = it.detail;
  one.documentation = it.documentation && new vscode.MarkdownString(it.documentation);
  if (it.insertText) one.insertText = it.insertText;
  return one;
}

const providers = {
  Hover: {
    async provideHover(document, at) {
      const found = await quiet("hover")(document, at);
      return found && new vscode.Hover(new vscode.MarkdownString(found.contents.value), range(found.range));
    },
  },
  Definition: {
    async provideDefinition(document, at) {
      const found = await quiet("definition")(document, at);
      return found && location(found);
    },
  },
  Reference: {
    async provideReferences(document, at, context) {
      const { includeDeclaration } = context;
      const found = await quiet("references")(document, at, { context: { includeDeclaration } });
      return (found || []).map(location);
    },
  },
  DocumentHighlight: {
    async provideDocumentHighlights(document, at) {
      const found = await quiet("documentHighlight")(document, at);
      return (found || []).map((it) => new vscode.DocumentHighlight(range(it.range)));
    },
  },
  DocumentSymbol: {
    async provideDocumentSymbols(document) {
      return ((await quiet("documentSymbol")(document)) || []).map(symbol);
    },
  },
  Rename: {
    async prepareRename(document, at) {
      const found = await ask("prepareRename", document, at);
      return found && { range: range(found.range), placeholder: found.placeholder };
    },
    async provideRenameEdits(document, at, newName) {
      return workspaceEdit(await ask("rename", document, at, { newName }));
    },
  },
  DocumentFormattingEdit: {
    async provideDocumentFormattingEdits(document, options) {
      const how = { tabSize: options.tabSize, insertSpaces: options.insertSpaces };
      return edits(await ask("formatting", document, null, { options: how }));
    },
  },
};
const fixes = {
  async provideCodeActions(document, wanted) {
    const found = await quiet("codeAction")(document, null, {
      range: { start: place(wanted.start), end: place(wanted.end) }, context: { diagnostics: [] },
    });
    return (found || []).map((it) => {
      const one = new vscode.CodeAction(it.title, vscode.CodeActionKind.QuickFix);
      one.edit = workspaceEdit(it.edit);
      return one;
    });
  },
};
const completion = {
  async provideCompletionItems(document, at) {
    return ((await quiet("completion")(document, at)) || { items: [] }).items.map(proposal);
  },
};

/** The picture of a program's structure, beside its text; it is drawn again when the text is saved. */
function draw(document) {
  const name = document.uri.fsPath;
  execFile(compiler(), ["--picture", name], { maxBuffer: 64 * 1024 * 1024 }, (error, picture, said) => {
    const panel = pictures.get(name);
    if (!panel) return;
    const text = `${said || error}`.replace(/&/g, "&amp;").replace(/</g, "&lt;");
    const body = error ? `<pre>${text}</pre>` : picture;
    panel.webview.html = `<!DOCTYPE html><html><body style="padding: 8px">${body}</body></html>`;
  });
}

function picture() {
  const editor = vscode.window.activeTextEditor;
  if (!editor || !isOurs(editor.document)) return;
  const name = editor.document.uri.fsPath;
  if (!pictures.has(name)) {
    const panel = vscode.window.createWebviewPanel("warpd.picture", path.basename(name), vscode.ViewColumn.Beside, {});
    panel.onDidDispose(() => pictures.delete(name));
    pictures.set(name, panel);
  }
  draw(editor.document);
}

async function activate(context) {
  faults = vscode.languages.createDiagnosticCollection("warpd");
  const { workspace, languages, commands, CodeActionKind: { QuickFix } } = vscode;
  const selector = { language: LANGUAGE };
  const watcher = workspace.createFileSystemWatcher("**/*.lf");
  const saved = note("textDocument/didSave");
  context.subscriptions.push(
    faults, watcher, watcher.onDidCreate(fileChanged(1)), watcher.onDidChange(fileChanged(2)),
    watcher.onDidDelete(fileChanged(3)),
    workspace.onDidOpenTextDocument(opened), workspace.onDidChangeTextDocument(changed),
    workspace.onDidCloseTextDocument(note("textDocument/didClose")),
    workspace.onDidSaveTextDocument((document) => {
      saved(document);
      if (pictures.has(document.uri.fsPath)) draw(document);
    }),
    ...Object.entries(providers).map(([name, it]) => languages[`register${name}Provider`](selector, it)),
    languages.registerCodeActionsProvider(selector, fixes, { providedCodeActionKinds: [QuickFix] }),
    languages.registerCompletionItemProvider(selector, completion, ...WORDS),
    commands.registerCommand("warpd.picture", picture),
    commands.registerCommand("warpd.restart", async () => {
      await stop();
      await start();
    }));
  await start().catch((error) => vscode.window.showErrorMessage(`warpd: ${error.message}`));
}

module.exports = { activate, deactivate: stop };
