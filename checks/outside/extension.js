// Loads the extension of editors/vscode over a stand-in for the editor, and compares what it offers.
//
// usage: node extension.js
//
// Ends with an error where something differs. This is no test of Visual Studio Code.
"use strict";

const assert = require("assert");
const fs = require("fs");
const Module = require("module");
const os = require("os");
const path = require("path");
const util = require("util");

const FOLDER = path.join(__dirname, "..", "..", "editors", "vscode");
const TEMPORARY = fs.mkdtempSync(path.join(os.tmpdir(), "pl0dap"));
const CHECKER = path.join(TEMPORARY, "pl0");
const started = [];
const marked = {};
const offered = { commands: {} };
const settings = {};

class Task {
  constructor(definition, scope, name, source, execution, matchers) {
    Object.assign(this, { definition, scope, name, source, execution, matchers });
  }
}

class ProcessExecution {
  constructor(program, words) {
    this.words = [program, ...words];
  }
}

class Position {
  constructor(line, character) {
    Object.assign(this, { line, character });
  }

  translate(lines, characters) {
    return new Position(this.line + lines, this.character + characters);
  }
}

class Range {
  constructor(start, end) {
    this.at = [start.line, start.character, end.line, end.character];
  }
}

class Diagnostic {
  constructor(range, message, severity) {
    Object.assign(this, { range, message, severity });
  }
}

class InlineValueVariableLookup {
  constructor(range, variableName) {
    Object.assign(this, { range, variableName });
  }
}

class DebugAdapterExecutable {
  constructor(command, words) {
    this.words = [command, ...words];
  }
}

const word = new Range(new Position(2, 8), new Position(2, 12));
const document = {
  languageId: "pl0",
  fileName: "/tmp/a.pl0",
  uri: "/tmp/a.pl0",
  version: 1,
  getText: () => `text ${document.version}`,
  save: async () => true,
  getWordRangeAtPosition: () => word,
};
const say = (text) => started.push(text);
const editor = {
  Task,
  ProcessExecution,
  Position,
  Range,
  Diagnostic,
  DebugAdapterExecutable,
  InlineValueVariableLookup,
  DiagnosticSeverity: { Error: 0, Warning: 1 },
  TaskScope: { Workspace: 2 },
  Uri: { file: (name) => name },
  workspace: {
    textDocuments: [document],
    getConfiguration: (section) => ({ get: (name) => settings[`${section}.${name}`] }),
    onDidOpenTextDocument: (call) => (offered.open = call),
    onDidChangeTextDocument: (call) => (offered.change = call),
    onDidCloseTextDocument: (call) => (offered.close = call),
  },
  languages: {
    registerInlineValuesProvider: (type, provider) => (offered[`values ${type}`] = provider),
    createDiagnosticCollection: () => ({ set: (name, list) => (marked[name] = list), delete: (name) => delete marked[name] }),
  },
  window: { activeTextEditor: { document }, showErrorMessage: say },
  commands: { registerCommand: (name, call) => (offered.commands[name] = call) },
  debug: {
    registerDebugConfigurationProvider: (type, provider) => (offered[`debug ${type}`] = provider),
    registerDebugAdapterDescriptorFactory: (type, factory) => (offered[`adapter ${type}`] = factory),
  },
  tasks: {
    registerTaskProvider: (type, provider) => (offered[`tasks ${type}`] = provider),
    executeTask: async (task) => started.push(task.execution.words.join(" ")),
  },
};

const load = Module._load;
Module._load = (name, ...rest) => (name === "vscode" ? editor : load(name, ...rest));

/** A stand-in for `pl0`, which says this of each text, and ends with this status. */
function write(said, status) {
  fs.writeFileSync(CHECKER, `#!/bin/sh\necho "$2:${said}" >&2\nexit ${status}\n`, { mode: 0o755 });
}

/** What becomes of launches where a text has a mistake, a warning, or none, and where `pl0` isn't there. */
async function launches() {
  const launch = { type: "pl0", request: "launch", name: "PL/0", program: "/tmp/a.pl0" };
  const resolve = (given) => offered["debug pl0"].resolveDebugConfigurationWithSubstitutedVariables(undefined, given);
  settings["pl0.path.pl0"] = path.join(TEMPORARY, "nothing");
  assert.deepStrictEqual(await resolve(launch), launch);
  assert.deepStrictEqual(await resolve({ ...launch, noDebug: false }), launch);
  settings["pl0.path.pl0"] = CHECKER;
  write("3:9: error: `;` is missing".replace(/`/g, "\\`"), 2);
  assert.strictEqual(await resolve(launch), undefined);
  assert.strictEqual(await resolve({ ...launch, noDebug: true }), undefined);
  assert.strictEqual(await resolve({ ...launch, program: "/tmp/b.pl0" }), undefined);
  assert.deepStrictEqual(marked["/tmp/a.pl0"], [new Diagnostic(word, "`;` is missing", 0)]);
  assert.deepStrictEqual(marked["/tmp/b.pl0"][0].range.at, [2, 8, 2, 9]);
  write("3:9: warning: no statement", 0);
  assert.deepStrictEqual(await resolve(launch), launch);
  assert.deepStrictEqual(marked["/tmp/a.pl0"], [new Diagnostic(word, "no statement", 1)]);
  write("3:9: error: no text", 3);
  assert.deepStrictEqual(await resolve(launch), launch);
  assert.strictEqual(await resolve({ ...launch, noDebug: true }), undefined);
  const said = (name) => `${name}:3:9: error: \`;\` is missing`;
  const wanted = [said("/tmp/a.pl0"), said("/tmp/a.pl0"), said("/tmp/b.pl0"), `${CHECKER} run /tmp/a.pl0`];
  assert.deepStrictEqual(started.splice(0), wanted);
  delete settings["pl0.path.pl0"];
}

/** Waits until this is marked. */
async function comes(wanted) {
  const until = Date.now() + 20000;
  while (!util.isDeepStrictEqual(marked, wanted) && Date.now() < until) {
    await new Promise((resolve) => setTimeout(resolve, 50));
  }
  assert.deepStrictEqual(marked, wanted);
}

/** What is marked as one types: only the last text is looked at, and the marks go with the mistake, or with the text. */
async function typing() {
  settings["pl0.path.pl0"] = CHECKER;
  const checker = '#!/bin/sh\ntext=$(cat)\n[ "$text" = "text 4" ] || { echo "$2:3:9: error: $text" >&2; exit 2; }\n';
  fs.writeFileSync(CHECKER, checker, { mode: 0o755 });
  offered.open(document);
  document.version = 2;
  offered.change({ document });
  document.version = 3;
  offered.change({ document });
  offered.change({ document: { ...document, languageId: "c", uri: "/tmp/a.c" } });
  assert.deepStrictEqual(Object.keys(marked), []);
  await comes({ "/tmp/a.pl0": [new Diagnostic(word, "text 3", 0)] });
  document.version = 4;
  offered.change({ document });
  await comes({ "/tmp/a.pl0": [] });
  offered.close(document);
  assert.deepStrictEqual(marked, {});
  settings["pl0.path.pl0"] = path.join(TEMPORARY, "nothing");
  offered.change({ document });
  await comes({ "/tmp/a.pl0": [] });
  offered.close(document);
  delete settings["pl0.path.pl0"];
}

/** A text that is open when the extension starts is marked without a change. */
async function opened() {
  settings["pl0.path.pl0"] = CHECKER;
  write("3:9: error: first", 2);
  require(FOLDER).activate({ subscriptions: [] });
  await comes({ "/tmp/a.pl0": [new Diagnostic(word, "first", 0)] });
  offered.close(document);
  delete settings["pl0.path.pl0"];
}

/** Where words stand on the lines that are shown, up to that of a stop. */
function values() {
  const lines = ["const one = 1;", "var x1;", "x1 := x1 + one", "."];
  const text = { lineAt: (line) => ({ text: lines[line] }) };
  const shown = { start: { line: 1 }, end: { line: 3 } };
  const found = offered["values pl0"].provideInlineValues(text, shown, { stoppedLocation: { end: { line: 2 } } });
  assert.deepStrictEqual(
    found.map(({ variableName, range }) => [variableName, ...range.at]),
    [["var", 1, 0, 1, 3], ["x1", 1, 4, 1, 6], ["x1", 2, 0, 2, 2], ["x1", 2, 6, 2, 8], ["one", 2, 11, 2, 14]],
  );
}

/** The commands are offered for programs alone, one as a button; none of what a folder may say is run in a restricted window. */
function offers({ capabilities, contributes: { commands, configuration, menus } }) {
  const isProgram = "resourceLangId == pl0";
  assert.deepStrictEqual(commands.map((one) => one.enablement), commands.map(() => isProgram));
  assert.deepStrictEqual(menus["editor/title/run"].map(({ command, when }) => [command, when]), [["pl0.run", isProgram]]);
  assert.match(commands.find((one) => one.command === "pl0.run").icon, /^\$\(.+\)$/);
  assert.strictEqual(capabilities.untrustedWorkspaces.supported, true);
  assert.deepStrictEqual(Object.values(configuration.properties).filter((one) => one.scope !== "machine"), []);
}

/** The adapter, by its settings and without them. */
function adapters() {
  const words = () => offered["adapter pl0"].createDebugAdapterDescriptor().words;
  assert.deepStrictEqual(words(), ["pl0dap-listen", "-", "pl0dap"]);
  settings["pl0.path.pl0dap"] = "/opt/pl0dap";
  assert.deepStrictEqual(words(), ["pl0dap-listen", "-", "/opt/pl0dap"]);
  delete settings["pl0.path.pl0dap"];
}

/** Where Enter is followed by a deeper line, as the examples are laid out. */
function indentation() {
  const { indentationRules } = JSON.parse(fs.readFileSync(path.join(FOLDER, "language-configuration.json"), "utf8"));
  const increase = new RegExp(indentationRules.increaseIndentPattern);
  const depth = (line) => line.search(/\S/);
  const examples = path.join(__dirname, "..", "..", "examples");
  for (const name of fs.readdirSync(examples)) {
    const lines = fs.readFileSync(path.join(examples, name), "utf8").split("\n");
    lines.forEach((line, at) => {
      if (/\b(begin|then|do)$/.test(line)) {
        assert.strictEqual(depth(lines[at + 1]) - depth(line), increase.test(line) ? 2 : 0, `${name}:${at + 2}`);
      }
    });
  }
}

async function main() {
  const described = JSON.parse(fs.readFileSync(path.join(FOLDER, "package.json"), "utf8"));
  const contributed = described.contributes;
  offers(described);
  await opened();
  values();

  const resolve = (given) => offered["debug pl0"].resolveDebugConfiguration(undefined, given);
  const launch = { type: "pl0", request: "launch", name: "PL/0", program: "${file}" };
  assert.deepStrictEqual(resolve({}), launch);
  assert.deepStrictEqual(resolve({ type: undefined, noDebug: true }), { ...launch, noDebug: true });
  assert.deepStrictEqual(resolve({ ...launch, program: "a.pl0", stopOnEntry: true }), { ...launch, program: "a.pl0", stopOnEntry: true });
  await typing();
  await launches();
  adapters();
  indentation();
  assert.deepStrictEqual(Object.keys(contributed.configuration.properties), ["pl0.path.pl0dap", "pl0.path.pl0dap-listen", "pl0.path.pl0"]);

  const tasks = offered["tasks pl0"].provideTasks();
  assert.deepStrictEqual(
    tasks.map((task) => task.execution.words.join(" ")),
    ["pl0 run ${file}", "pl0 trace ${file}", "pl0 check ${file}", "pl0 list ${file}", "pl0 tree ${file}", "pl0 tokens ${file}"],
  );
  assert.deepStrictEqual(
    tasks.map((task) => task.definition.command),
    contributed.taskDefinitions[0].properties.command.enum,
  );
  const matchers = contributed.problemMatchers.map((one) => `$${one.name}`);
  assert.deepStrictEqual(tasks[0].matchers, matchers);

  assert.deepStrictEqual(
    Object.keys(offered.commands),
    contributed.commands.map((one) => one.command),
  );
  for (const command of Object.values(offered.commands)) {
    await command();
  }
  assert.deepStrictEqual(started, ["pl0 run /tmp/a.pl0", "pl0 trace /tmp/a.pl0", "pl0 check /tmp/a.pl0"]);

  const { regexp, file, line, column, severity, message } = contributed.problemMatchers[0].pattern;
  const found = new RegExp(regexp).exec("/home/a b/gcd.pl0:3:9: error: `;` is missing");
  assert.deepStrictEqual([found[file], found[line], found[column], found[message]], ["/home/a b/gcd.pl0", "3", "9", "`;` is missing"]);
  assert.notStrictEqual(new RegExp(regexp).exec("gcd.pl0:3:9: fault: overflow"), null);
  assert.strictEqual(new RegExp(regexp).exec("gcd.pl0:3:9: warning: no statement")[severity], "warning");
  assert.strictEqual(new RegExp(regexp).exec("pl0dap: syntax 6 3 9"), null);
  console.log("the extension offers what package.json says");
}

main()
  .catch((error) => {
    console.log(error.message);
    process.exitCode = 1;
  })
  .finally(() => fs.rmSync(TEMPORARY, { recursive: true }));
