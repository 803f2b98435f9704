"""The core of examples/riscv, or a text that was made of it, compiled and clocked by the program."""

import os
import re
import subprocess
from importlib.machinery import SourceFileLoader
from importlib.util import module_from_spec, spec_from_loader


def script(path):
    """A Python script as a module."""
    loader = SourceFileLoader("run", path)
    module = module_from_spec(spec_from_loader("run", loader))
    loader.exec_module(module)
    return module


class Core:
    def __init__(self, program, top, folder, text=None):
        self.program, self.folder = program, folder
        self.example = os.path.join(top, "examples", "riscv")
        self.lattice, self.module = os.path.join(self.example, "lattice.toml"), os.path.join(folder, "core.v")
        self.design = os.path.join(self.example, "core.sapper")
        self.run = script(os.path.join(self.example, "run"))
        if text is not None:
            self.design = os.path.join(folder, "core.sapper")
            with open(self.design, "w", encoding="ascii") as file:
                file.write(text)
        self.refused = self.called("compile", self.lattice, self.design, self.module)

    def called(self, *words):
        """What a command writes, its line on a refused file included."""
        ran = subprocess.run([self.program, *words], stdout=subprocess.PIPE, stderr=subprocess.STDOUT, text=True, check=False)
        return ran.stdout.strip()

    def stimulus(self, words_a, words_b, cycles, name="stimulus"):
        path = os.path.join(self.folder, name)
        with open(path, "w", encoding="ascii") as file:
            file.write(self.run.stimulus(words_a, words_b, cycles))
        return path

    def rows(self, path):
        """The rows of the module on a stimulus, as bytes."""
        with subprocess.Popen([self.program, "sim", self.lattice, self.module, path], stdout=subprocess.PIPE) as sim:
            yield from sim.stdout
        if sim.returncode:
            raise SystemExit(f"sim: status {sim.returncode}")

    def lines(self, words_a, words_b, cycles):
        """What both owners show, with cycles."""
        return list(self.run.shown(self.rows(self.stimulus(words_a, words_b, cycles))))

    def seen(self, path, level):
        """Of each row on a stimulus what is at low or at a level."""
        other = "ab".replace(level, "").encode()
        hidden = re.compile(rb" \w+=\d+@(?:%b|high)(?= |\n)" % other)
        return [hidden.sub(b"", row) for row in self.rows(path)]
