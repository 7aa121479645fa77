// Boogie programs in VS Code: a client of the bridge `bpl-lsp`, which stands in the folder above.

const path = require("path");
const vscode = require("vscode");
const { Connection } = require("./connection");

const LANGUAGE = "boogie";
const CAPABILITIES = {
  textDocument: { publishDiagnostics: { relatedInformation: true } },
  workspace: { codeLens: { refreshSupport: true } },
  window: { workDoneProgress: true },
};

function range({ start, end }) {
  return new vscode.Range(start.line, start.character, end.line, end.character);
}

function diagnostic(told) {
  const made = new vscode.Diagnostic(range(told.range), told.message, vscode.DiagnosticSeverity.Error);
  made.code = told.code;
  made.source = told.source;
  made.relatedInformation = (told.relatedInformation || []).map(({ location, message }) => {
    const where = new vscode.Location(vscode.Uri.parse(location.uri), range(location.range));
    return new vscode.DiagnosticRelatedInformation(where, message);
  });
  return made;
}

class Client {
  constructor() {
    const [command, ...words] = vscode.workspace.getConfiguration("bplserve").get("command", []);
    const bridge = command || path.join(__dirname, "..", "bpl-lsp");
    this.diagnostics = vscode.languages.createDiagnosticCollection("bplserve");
    this.status = vscode.window.createStatusBarItem();
    this.lensesChanged = new vscode.EventEmitter();
    this.onDidChangeCodeLenses = this.lensesChanged.event;
    this.connection = new Connection(bridge, words, (method, params) => this.hear(method, params), (why) => this.ended(why));
    this.start();
  }

  // Documents that were opened before are told once the bridge has answered.
  async start() {
    await this.connection.ask("initialize", { processId: process.pid, rootUri: null, capabilities: CAPABILITIES });
    this.connection.notify("initialized", {});
    this.runs = true;
    vscode.workspace.textDocuments.forEach((document) => this.opened(document));
  }

  hear(method, params) {
    if (method === "textDocument/publishDiagnostics") {
      this.diagnostics.set(vscode.Uri.parse(params.uri), params.diagnostics.map(diagnostic));
    } else if (method === "workspace/codeLens/refresh") {
      this.lensesChanged.fire();
    } else if (method === "window/showMessage") {
      vscode.window.showWarningMessage(params.message);
    } else if (method === "$/progress") {
      this.progress(params.value);
    }
  }

  progress(value) {
    if (value.kind === "end") {
      this.status.hide();
    } else {
      this.status.text = `$(sync~spin) ${value.message}`;
      this.status.show();
    }
  }

  ended(why) {
    if (!this.stopped) vscode.window.showErrorMessage(`bpl-lsp: ${why}`);
    this.stopped = true;
    this.runs = false;
  }

  notify(method, document, more = {}) {
    if (document.languageId !== LANGUAGE || !this.runs) return;
    const { uri, version } = document;
    this.connection.notify(method, { textDocument: { uri: uri.toString(), version }, ...more });
  }

  opened(document) {
    if (document.languageId !== LANGUAGE || !this.runs) return;
    const told = { uri: document.uri.toString(), languageId: LANGUAGE, version: document.version, text: document.getText() };
    this.connection.notify("textDocument/didOpen", { textDocument: told });
  }

  changed({ document, contentChanges }) {
    const changes = contentChanges.map((change) => ({ range: change.range, text: change.text }));
    if (changes.length) this.notify("textDocument/didChange", document, { contentChanges: changes });
  }

  async provideCodeLenses(document) {
    if (!this.runs) return [];
    const lenses = await this.connection.ask("textDocument/codeLens", { textDocument: { uri: document.uri.toString() } });
    return (lenses || []).map((lens) => new vscode.CodeLens(range(lens.range), lens.command));
  }

  async stop() {
    if (this.stopped) return;
    this.stopped = true;
    this.runs = false;
    await this.connection.ask("shutdown");
    this.connection.notify("exit");
  }
}

let client;

function activate(context) {
  client = new Client();
  const { workspace } = vscode;
  context.subscriptions.push(
    workspace.onDidOpenTextDocument((document) => client.opened(document)),
    workspace.onDidChangeTextDocument((event) => client.changed(event)),
    workspace.onDidSaveTextDocument((document) => client.notify("textDocument/didSave", document)),
    workspace.onDidCloseTextDocument((document) => client.notify("textDocument/didClose", document)),
    vscode.languages.registerCodeLensProvider({ language: LANGUAGE }, client),
    client.diagnostics,
    client.status,
  );
}

function deactivate() {
  return client && client.stop();
}

module.exports = { activate, deactivate };
