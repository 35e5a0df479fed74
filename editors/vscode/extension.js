// What package.json can't say: which program F5 debugs where no launch.json says it, what Ctrl+F5, the tasks and the commands run,
// which values stand beside the lines, and where a text has a mistake.
"use strict";

const { execFile } = require("child_process");
const vscode = require("vscode");

/** What the extension can do with a program: each task has the name of the command of `pl0` that it runs. */
const TASKS = ["run", "trace", "check", "list", "tree", "tokens"];

/** What is debugged where no launch.json says it. */
const LAUNCH = { type: "pl0", request: "launch", name: "PL/0", program: "${file}" };

/** How `pl0 check` reports a mistake or a warning, and the status with which it ends after a mistake. */
const REPORT = /^(?<all>.*:(?<line>\d+):(?<column>\d+): (?<kind>error|warning): (?<words>.*))$/gm;
const HAS_MISTAKE = 2;
const CHECKING = { timeout: 10000 }; // in milliseconds
const REST = 500; // after a change, up to a look at the text
const TYPED = "-"; // the name of a text that is no file's
const WORD = /[A-Za-z][A-Za-z0-9]*/g;

/** The path of a program, such as `pl0`, by the settings. */
const pathOf = (program) => vscode.workspace.getConfiguration("pl0.path").get(program) || program;

let mistakes;

/** What is reported of the text of a file, or of one that was typed, if it can be asked: a mistake, or warnings. */
function reportsOf(file, text = "") {
  return new Promise((resolve) => {
    const { stdin } = execFile(pathOf("pl0"), ["check", file], CHECKING, (error, _output, printed) => {
      const isChecked = !error || error.code === HAS_MISTAKE;
      resolve(isChecked ? Array.from(printed.matchAll(REPORT), ({ groups }) => groups) : []);
    });
    stdin.on("error", () => {}); // it couldn't be started, or has ended
    stdin.end(text);
  });
}

/** Marks what is reported of a text in place of what was marked, and returns the mistake, if there is one. */
function mark(uri, reports, document) {
  const { Error: error, Warning: warning } = vscode.DiagnosticSeverity;
  const marked = reports.map(({ line, column, kind, words }) => {
    const start = new vscode.Position(line - 1, column - 1);
    const range = document?.getWordRangeAtPosition(start) || new vscode.Range(start, start.translate(0, 1));
    return new vscode.Diagnostic(range, words, { error, warning }[kind]);
  });
  mistakes.set(uri, marked);
  return reports.find(({ kind }) => kind === "error");
}

/** Marks what is reported of the text of a file, and returns the mistake, if there is one. */
async function check(file) {
  const document = vscode.workspace.textDocuments.find((one) => one.fileName === file);
  return mark(vscode.Uri.file(file), await reportsOf(file), document);
}

/** Marks what is reported of a text as one types it, soon after the last change. */
function checkSoon(document) {
  const { version } = document;
  const isShown = () => document.version === version && !document.isClosed;
  setTimeout(async () => {
    const reports = isShown() ? await reportsOf(TYPED, document.getText()) : [];
    if (isShown()) {
      mark(document.uri, reports, document);
    }
  }, REST);
}

/** Calls with each document that is a program. */
const ofPrograms = (call) => (document) => (document.languageId === "pl0" ? call(document) : undefined);

const configurations = {
  /** Adds what a configuration leaves out, which for F5 without a launch.json is all. */
  resolveDebugConfiguration(_folder, configuration) {
    const given = { ...configuration };
    for (const [name, value] of Object.entries(LAUNCH)) {
      given[name] ||= value;
    }
    return given;
  },

  /** Runs the program where it isn't to be debugged, as by Ctrl+F5. A text with a mistake isn't launched. */
  async resolveDebugConfigurationWithSubstitutedVariables(_folder, configuration) {
    const { noDebug, ...given } = configuration;
    const mistake = await check(given.program);
    if (mistake) {
      vscode.window.showErrorMessage(mistake.all);
    } else if (noDebug) {
      await execute("run", given.program);
    } else {
      return given;
    }
    return undefined; // which starts no session, and says nothing
  },
};

const inlineValues = {
  /** Asks for the value of each word on the lines that are shown up to the stop; what is no variable has none. */
  provideInlineValues(document, shown, { stoppedLocation }) {
    const found = [];
    for (let line = shown.start.line; line <= stoppedLocation.end.line; line += 1) {
      for (const { 0: name, index } of document.lineAt(line).text.matchAll(WORD)) {
        const start = new vscode.Position(line, index);
        found.push(new vscode.InlineValueVariableLookup(new vscode.Range(start, start.translate(0, name.length)), name));
      }
    }
    return found;
  },
};

const adapters = {
  createDebugAdapterDescriptor: () => new vscode.DebugAdapterExecutable(pathOf("pl0dap-listen"), ["-", pathOf("pl0dap")]),
};

function taskOf(definition, scope = vscode.TaskScope.Workspace) {
  const execution = new vscode.ProcessExecution(pathOf("pl0"), [definition.command, definition.file || "${file}"]);
  return new vscode.Task(definition, scope, definition.command, "pl0", execution, ["$pl0"]);
}

const execute = (command, file) => vscode.tasks.executeTask(taskOf({ type: "pl0", command, file }));

const tasks = {
  provideTasks: () => TASKS.map((command) => taskOf({ type: "pl0", command })),
  resolveTask: ({ definition, scope }) => (TASKS.includes(definition.command) ? taskOf(definition, scope) : undefined),
};

/** Saves the program of the editor, and does something with it in the terminal. */
async function start(command) {
  const { document } = vscode.window.activeTextEditor;
  await document.save();
  await execute(command, document.fileName);
}

function activate(context) {
  mistakes = vscode.languages.createDiagnosticCollection("pl0");
  context.subscriptions.push(
    mistakes,
    vscode.workspace.onDidOpenTextDocument(ofPrograms(checkSoon)),
    vscode.workspace.onDidChangeTextDocument(({ document }) => ofPrograms(checkSoon)(document)),
    vscode.workspace.onDidCloseTextDocument(ofPrograms((document) => mistakes.delete(document.uri))),
    vscode.debug.registerDebugConfigurationProvider("pl0", configurations),
    vscode.debug.registerDebugAdapterDescriptorFactory("pl0", adapters),
    vscode.languages.registerInlineValuesProvider("pl0", inlineValues),
    vscode.tasks.registerTaskProvider("pl0", tasks),
    ...["run", "trace", "check"].map((command) => vscode.commands.registerCommand(`pl0.${command}`, () => start(command))),
  );
  vscode.workspace.textDocuments.forEach(ofPrograms(checkSoon)); // no event comes for those that are open already
}

module.exports = { activate };
