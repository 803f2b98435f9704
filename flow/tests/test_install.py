"""What ./install puts somewhere runs from there, and ./install --remove leaves nothing of it."""
import os
import shutil
import subprocess

from common.program import PROGRAM, TOP

from .support import Folder, example, needs


class Install(Folder):
    def install(self, *words):
        ran = self.call(os.path.join(TOP, "install"), *words)
        return ran.returncode, ran.stdout + ran.stderr

    def every(self):
        return {os.path.relpath(os.path.join(at, name), self.folder) for at, _, names in os.walk(self.folder) for name in names if not name.endswith(".pyc")}

    def run_there(self, name, *words):
        """Runs an installed program with no SAPPER set, so that it has to find what it needs."""
        there = {name: value for name, value in os.environ.items() if name != "SAPPER"}
        ran = subprocess.run([self.path(f"here/bin/{name}"), *words], cwd=self.folder, capture_output=True, text=True, check=False, env=there)
        return ran.returncode, ran.stdout, ran.stderr

    def test_all(self):
        before = self.every()
        status, told = self.install("here")
        self.assertEqual(status, 0, told)
        installed = {path for path in self.every() - before}
        wanted = ("bin/sapper", "share/man/man1/sapper.1", "share/vim/vimfiles/compiler/sapper.vim", "share/sapper/editors/vscode/package.json")
        self.assertTrue({f"here/{path}" for path in wanted} <= installed)
        self.assertEqual([path for path in installed if "/tests/" in path or os.path.basename(path).startswith("test")], [])
        told = [line.split(" ")[0] for line in self.held("here/share/sapper/build").split("\n")]
        self.assertEqual(told, ["sapper", "sha256", "sources", "kit", ""])
        lattice, design = example("first/lattice.toml"), example("first/adder.sapper")
        self.assertEqual(self.run_there("sapper", "compile", lattice, design, "top.v"), (0, "", ""))
        self.assertEqual(self.run_there("sapper-check", lattice, design), (0, "", ""))
        self.assertEqual(self.run_there("sapper-lint", lattice, design), (0, "", ""))
        self.assertEqual(self.run_there("sapper-wrap", lattice, design, "top.v", "w", "--reset"), (0, "", ""))
        self.assertEqual(self.install("here")[0], 0)
        status, told = self.install("--remove", "here")
        self.assertEqual((status, os.path.exists(self.path("here"))), (0, True), told)
        self.assertEqual(os.listdir(self.path("here")), [])
        self.assertEqual(self.install("--remove", "here")[0], 1)

    def test_what_was_there_stays(self):
        os.makedirs(self.path("here/bin"))
        self.put("here/bin/other", "")
        self.assertEqual(self.install("here")[0], 0)
        self.assertEqual(self.install("here", "--remove")[0], 0)
        self.assertEqual([path for path in self.every() if path.startswith("here")], ["here/bin/other"])

    @needs("iverilog", "vvp", "yosys")
    def test_scripts_over_tools(self):
        self.assertEqual(self.install("here")[0], 0)
        lattice, design, stimulus = (example(f"first/{name}") for name in ("lattice.toml", "adder.sapper", "stimulus.txt"))
        self.assertEqual(self.run_there("sapper-watch", lattice, design, stimulus, "run.vcd")[::2], (0, ""))
        self.assertEqual(self.run_there("sapper-to-subset", example("verilog/fifo.v"), "out.v"), (0, "", ""))

    def test_without_the_program(self):
        before = os.environ.get("SAPPER")
        os.environ["SAPPER"] = self.path("none")
        try:
            status, told = self.install("here")
        finally:
            os.environ.update({"SAPPER": before}) if before else os.environ.pop("SAPPER")
        self.assertEqual((status, os.path.exists(self.path("here"))), (1, False))
        self.assertIn("./demo builds it", told)
        self.assertTrue(shutil.which(PROGRAM))
