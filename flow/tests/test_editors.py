"""The editors' files: what they make of every line that check and lint write, and what they call."""
import json
import os
import re

from common.program import TOP
from common.warnings import KINDS

from .support import Folder, needs

CODES = [f"E{number}" for number in range(1, 19) if number != 13] + [f"L{number}" for number in range(1, 9)] + [f"K{number}" for number in range(1, 10)]
VIM = os.path.join(TOP, "editors", "vim")
CODE = os.path.join(TOP, "editors", "vscode")
# Runs the extension with a stand-in for VS Code, and tells the tasks that it gives.
HARNESS = """
const Module = require("module"), load = Module._load;
let provider;
const settings = JSON.parse(process.argv[2]), design = process.argv[3];
const vscode = {
  workspace: { getConfiguration: () => ({ get: (name) => settings[name] || "" }) },
  window: { activeTextEditor: design ? { document: { languageId: "sapper", fileName: design } } : undefined },
  tasks: { registerTaskProvider: (type, it) => { provider = it; return { dispose() {} }; } },
  ProcessExecution: class { constructor(command, words) { Object.assign(this, { command, words }); } },
  Task: class { constructor(definition, scope, name, source, execution, matchers) { Object.assign(this, { definition, name, source, execution, matchers }); } },
  TaskScope: { Workspace: 2 }, TaskGroup: { Build: "build" },
};
Module._load = (name, ...rest) => (name === "vscode" ? vscode : load(name, ...rest));
const context = { subscriptions: [] };
require(process.argv[4]).activate(context);
const told = (task) => ({ name: task.name, command: [task.execution.command, ...task.execution.words], matchers: task.matchers, group: task.group });
const given = provider.provideTasks().map(told);
const resolved = provider.resolveTask({ definition: { type: "sapper", script: "lint", design: "/d.sapper", lattice: "/l.toml" } });
console.log(JSON.stringify({ given, resolved: told(resolved), subscriptions: context.subscriptions.length }));
"""
MATCH = """
const pattern = JSON.parse(require("fs").readFileSync(process.argv[2])).contributes.problemMatchers[0].pattern;
const lines = require("fs").readFileSync(process.argv[3], "utf8").split("\\n").filter(Boolean);
console.log(JSON.stringify(lines.map((line) => {
  const found = new RegExp(pattern.regexp).exec(line);
  return found && [found[pattern.file], +found[pattern.line], +found[pattern.column], found[pattern.severity], found[pattern.message]];
})));
"""


class Editors(Folder):
    def lines(self):
        """A line of each code and of each kind of warning, with its parts."""
        parts = []
        for at, code in enumerate(CODES, 1):
            title = self.program("--explain", code)[0].rstrip(".")
            parts.append(["d.sapper" if code[0] == "E" else "some lattice.toml", at, 2 * at, "error", f"{title}. Cure: with a colon, `a[3:0]`."])
        parts += [["d.sapper", 7, at, "warning", f"{what} [{kind}]"] for at, (kind, what) in enumerate(KINDS.items(), 1)]
        self.put("lines", "".join(f"{file}:{line}:{column}: {kind}: {text}\n" for file, line, column, kind, text in parts))
        return parts

    @needs("node")
    def test_matcher(self):
        parts = self.lines()
        self.put("match.js", MATCH)
        ran = self.call("node", "match.js", f"{CODE}/package.json", "lines")
        self.assertEqual(json.loads(ran.stdout), parts, ran.stderr)

    @needs("node")
    def test_tasks(self):
        self.put("harness.js", HARNESS)
        os.makedirs(self.path("deep/er"))
        design = self.put("deep/er/d.sapper", "")
        for settings, command, lattice in (({}, "sapper-", self.path("lattice.toml")), ({"flow": "/flow", "lattice": "/l.toml"}, "/flow/", "/l.toml")):
            ran = self.call("node", "harness.js", json.dumps(settings), self.path(design), f"{CODE}/extension.js")
            told = json.loads(ran.stdout)
            self.assertEqual(told["given"], [
                {"name": script, "command": [command + script, lattice, self.path(design)], "matchers": ["$sapper"], "group": "build"} for script in ("check", "lint")
            ], ran.stderr)
            self.assertEqual(told["resolved"]["command"], [f"{command}lint", "/l.toml", "/d.sapper"])
            self.assertEqual(told["subscriptions"], 1)
        self.assertEqual(json.loads(self.call("node", "harness.js", "{}", "", f"{CODE}/extension.js").stdout)["given"], [])

    def test_files_of_the_extension(self):
        """Each file that package.json names is there, and its task and matcher have the names that the extension uses."""
        with open(f"{CODE}/package.json", encoding="utf-8") as file:
            package = json.load(file)
        gives = package["contributes"]
        for name in (package["main"], gives["languages"][0]["configuration"], gives["grammars"][0]["path"]):
            self.assertTrue(os.path.exists(os.path.join(CODE, name)), name)
        with open(os.path.join(CODE, "sapper.tmLanguage.json"), encoding="utf-8") as file:
            self.assertEqual(json.load(file)["scopeName"], gives["grammars"][0]["scopeName"])
        self.assertEqual((gives["taskDefinitions"][0]["type"], gives["problemMatchers"][0]["name"]), ("sapper", "sapper"))

    def vim(self, commands, *files):
        self.put("script.vim", f"set nocompatible\nlet &runtimepath = '{VIM},' . &runtimepath\nfiletype plugin on\n{commands}\nqall!\n")
        self.call("vim", "-es", "-u", "NONE", "-S", "script.vim", *files)
        return json.loads(self.held("found"))

    GIVE = "call writefile([json_encode(map(getqflist(), '[bufname(v:val.bufnr), v:val.lnum, v:val.col, v:val.type, v:val.text]'))], 'found')"

    @needs("vim")
    def test_errorformat(self):
        parts = self.lines()
        found = self.vim(f"edit d.sapper\ncompiler sapper\ncgetfile lines\n{self.GIVE}")
        self.assertEqual(found, [[file, line, column, kind[0], text] for file, line, column, kind, text in parts])

    @needs("vim")
    def test_make(self):
        """`:make` finds the lattice above the design, and a fault and warnings at their places."""
        os.makedirs(self.path("deep/er"))
        self.put("deep/er/d.sapper", "input a : 8;\nreg x : 8 dynamic;\nstate S enforced low {\n  x := 1;\n  goto S;\n}\n")
        found = self.vim(f"edit deep/er/d.sapper\ncompiler sapper\nsilent! make!\n{self.GIVE}")
        self.assertEqual([one for one in found if one[1]], [["deep/er/d.sapper", 1, 7, "w", "nothing reads the input a [unread]"]])
        self.put("deep/er/d.sapper", "reg x : 8 dynamic\n")
        found = self.vim(f"edit deep/er/d.sapper\ncompiler sapper\nsilent! make!\n{self.GIVE}")
        self.assertEqual([(*one[:4], one[4][:3]) for one in found if one[1]], [("deep/er/d.sapper", 2, 1, "e", "E2:")])

    def test_grammars(self):
        ran = self.call(os.path.join(TOP, "editors", "check"))
        self.assertEqual(ran.returncode, 0, ran.stdout)
        self.assertTrue(re.search(r"TextMate grammar: \d+ texts, \d+ tokens, none of them wrong", ran.stdout))
