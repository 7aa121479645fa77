// The extension for VS Code over a stand-in for the editor's interface: what test_vscode.py has Node.js do.
// The documents and their changes are objects of the form that VS Code hands out.

const Module = require("module");
const path = require("path");
const assert = require("assert");

const SECONDS = 20;
const shown = new Map();
const heard = {};
let lenses;

class Range {
  constructor(line, character, endLine, endCharacter) {
    this.start = { line, character };
    this.end = { line: endLine, character: endCharacter };
  }
}

const disposable = { dispose() {} };
const on = (name) => (take) => ((heard[name] = take), disposable);
const document = { uri: { toString: () => "file:///program.bpl" }, languageId: "boogie", version: 1 };

const vscode = {
  Range,
  Diagnostic: class { constructor(range, message, severity) { Object.assign(this, { range, message, severity }); } },
  DiagnosticSeverity: { Error: 0 },
  DiagnosticRelatedInformation: class { constructor(location, message) { Object.assign(this, { location, message }); } },
  Location: class { constructor(uri, range) { Object.assign(this, { uri, range }); } },
  CodeLens: class { constructor(range, command) { Object.assign(this, { range, command }); } },
  EventEmitter: class { event() {} fire() {} },
  Uri: { parse: (text) => ({ toString: () => text }) },
  window: {
    createStatusBarItem: () => ({ show() {}, hide() {} }),
    showErrorMessage: (message) => { throw new Error(message); },
    showWarningMessage: (message) => { throw new Error(message); },
  },
  languages: {
    createDiagnosticCollection: () => ({ set: (uri, found) => shown.set(uri.toString(), found), ...disposable }),
    registerCodeLensProvider: (_selector, provider) => ((lenses = provider), disposable),
  },
  workspace: {
    getConfiguration: () => ({ get: (_name, otherwise) => otherwise }),
    textDocuments: [document],
    onDidOpenTextDocument: on("open"),
    onDidChangeTextDocument: on("change"),
    onDidSaveTextDocument: on("save"),
    onDidCloseTextDocument: on("close"),
  },
};

const load = Module._load;
Module._load = (name, ...rest) => (name === "vscode" ? vscode : load(name, ...rest));
const extension = require(path.join(__dirname, "..", "vscode", "extension.js"));

// Waits until what is shown of the document is as wanted.
async function expect(wanted) {
  const end = Date.now() + SECONDS * 1000;
  const told = (found) => found && found.map(({ range: { start }, code }) => [start.line, start.character, code]);
  const found = () => told(shown.get(document.uri.toString()));
  while (Date.now() < end) {
    if (JSON.stringify(found()) === JSON.stringify(wanted)) return;
    await new Promise((go) => setTimeout(go, 20));
  }
  assert.deepStrictEqual(found(), wanted);
}

function change(line, character, endCharacter, text) {
  document.version += 1;
  heard.change({ document, contentChanges: [{ range: new Range(line, character, line, endCharacter), text }] });
}

async function play() {
  document.getText = () => "procedure Need(n: int);\n  requires n > 0;\nprocedure P() { call Need(0); /* \u{1f600} */ assert 1 == 1; }\n";
  const context = { subscriptions: [] };
  extension.activate(context);
  await expect([[2, 16, "requires(1) open"]]);
  const [{ relatedInformation }] = shown.get(document.uri.toString());
  assert.strictEqual(relatedInformation[0].location.range.start.line, 1);
  const [lens] = await lenses.provideCodeLenses(document);
  assert.strictEqual(lens.command.title, "1 of 2 goals proved");
  change(2, 26, 27, "1");
  await expect([]);
  change(2, 46, 47, "true");
  // the right operand is compared with the left
  await expect([[2, 54, "Sort"]]);
  heard.save(document);
  heard.close(document);
  await expect([]);
  await extension.deactivate();
}

play().then(() => process.exit(0), (error) => { console.error(error); process.exit(1); });
