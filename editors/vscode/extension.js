// The tasks `sapper: check` and `sapper: lint` of the design that is edited.
const fs = require("fs");
const path = require("path");
const vscode = require("vscode");

// The nearest lattice.toml at or above a file's folder; beside it, where there is none.
function nearestLattice(design) {
  const beside = path.join(path.dirname(design), "lattice.toml");
  for (let folder = path.dirname(design); ; folder = path.dirname(folder)) {
    const file = path.join(folder, "lattice.toml");
    if (fs.existsSync(file)) return file;
    if (folder === path.dirname(folder)) return beside;
  }
}

function command(script) {
  const folder = vscode.workspace.getConfiguration("sapper").get("flow");
  return folder ? path.join(folder, script) : `sapper-${script}`;
}

function editedDesign() {
  const editor = vscode.window.activeTextEditor;
  return editor && editor.document.languageId === "sapper" ? editor.document.fileName : undefined;
}

function taskOf(definition) {
  const design = definition.design || editedDesign();
  if (!design) return undefined;
  const lattice = definition.lattice || vscode.workspace.getConfiguration("sapper").get("lattice") || nearestLattice(design);
  const run = new vscode.ProcessExecution(command(definition.script), [lattice, design]);
  const task = new vscode.Task(definition, vscode.TaskScope.Workspace, definition.script, "sapper", run, ["$sapper"]);
  task.group = vscode.TaskGroup.Build;
  return task;
}

const provider = {
  provideTasks: () => ["check", "lint"].map((script) => taskOf({ type: "sapper", script })).filter(Boolean),
  resolveTask: (task) => taskOf(task.definition),
};

function activate(context) {
  context.subscriptions.push(vscode.tasks.registerTaskProvider("sapper", provider));
}

module.exports = { activate, deactivate() {} };
