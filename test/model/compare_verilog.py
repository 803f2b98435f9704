"""flow/to_subset beside Icarus Verilog. Usage: python3 -m model.compare_verilog TOP COUNT SEED [PROGRAM]"""

import glob
import os
import random
import shutil
import subprocess
import sys
import tempfile
from collections import Counter

from .brought_over import brought_over, rows_by_model
from .examples import held
from .icarus import IcarusFailed, rows_by_icarus
from .lattice import lattice_of
from .modules import module_of
from .random_streams import random_value
from .random_verilog import random_verilog
from .taint_table import TWO
from .taints import first_clash, wave_of_taint
from .verilog_table import BROUGHT_OVER, REFUSED
from .waves import dump_of, rows_of, wave_of_run

CYCLES = 60
# The name of an input that is held for the first cycles, whose rows aren't compared.
RESET, HELD = "rst", 2

COUNTS = ("brought over", "refused", "items", "memories", "bits", "bits that aren't said", "dumps", "rows with tags", "not taken by Icarus Verilog")


class Case:
    """A folder with a module of Verilog, and what isn't as it is to be."""

    def __init__(self, script, program, name, text, counts):
        self.script, self.program, self.text, self.counts = script, program, text, counts
        self.folder = tempfile.mkdtemp(prefix=f"verilog_{name}_")
        self.differing = []
        self.put("given.v", text)

    def put(self, name, text):
        with open(os.path.join(self.folder, name), "w", encoding="ascii") as file:
            file.write(text)

    def call(self):
        return subprocess.run([sys.executable, self.script, "given.v", "out.v"], cwd=self.folder, capture_output=True, text=True, check=False)

    def refused(self, line):
        """Refused in one line, and nothing is written."""
        done = self.call()
        said = done.stderr.replace("given.v", "FILE").removeprefix("to_subset: ").strip()
        if (done.returncode, done.stdout, os.path.exists(os.path.join(self.folder, "out.v"))) != (1, "", False) or "\n" in said or said != (line or said):
            self.differing.append(f"status {done.returncode}, {said!r} in place of {line!r}")
        self.counts["refused"] += 1

    def same(self, draw, is_drawn=False):
        """The rows of what is written, by Icarus Verilog and by the model, are those of the given module. One that was drawn may be more than Icarus Verilog
        takes."""
        done = self.call()
        if done.returncode or done.stdout or done.stderr:
            self.differing.append(f"status {done.returncode}, {(done.stderr or done.stdout)[:300]!r}")
            return
        over = brought_over(held(self.folder, "out.v"))
        pins = over.given_pins()
        inputs = [pin for pin in pins if not pin.is_output]
        stimulus = [[random_value(draw, pin.width) for pin in inputs] for _ in range(CYCLES)]
        first = HELD if any(pin.name == RESET for pin in inputs) else 0
        for numbers in stimulus[:first]:
            numbers[[pin.name for pin in inputs].index(RESET)] = 1
        try:
            given = rows_by_icarus(self.folder, "given.v", self.name_of_top(), over.clock, pins, stimulus)
            written = rows_by_icarus(self.folder, "out.v", "top", "clk", over.own_pins(), stimulus)
        except IcarusFailed as what:
            self.counts["not taken by Icarus Verilog"] += 1
            self.differing += [] if is_drawn and what.file == "given.v" else [str(what)]
            return
        module = over.module()
        if first_clash(module):
            self.differing.append(f"no room for the tag of {first_clash(module)}")
        if written != rows_by_model(module, stimulus):
            self.differing.append("the rows of what is written aren't the model's")
        if self.program:
            self.by_program(module, stimulus)
        for cycle, (row, own) in enumerate(list(zip(given, written))[first:], first + 1):
            self.same_row(cycle, row, own)
        self.counts["brought over"] += 1
        self.counts["items"] += len(module.wires) + len(module.edges) + len(module.writes)
        self.counts["memories"] += len(module.depths)

    def by_program(self, module, stimulus):
        """The built program takes what is written, and its dump is the model's."""
        text = "".join(" ".join(map(str, numbers)) + "\n" for numbers in stimulus)
        self.put("lattice.toml", TWO)
        self.put("stimulus.txt", text)
        words = [self.program, "wave", "lattice.toml", "out.v", "stimulus.txt", "out.vcd"]
        done = subprocess.run(words, cwd=self.folder, capture_output=True, text=True, check=False)
        if done.returncode or held(self.folder, "out.vcd") != dump_of(wave_of_run(module, text, lattice_of(TWO))):
            self.differing.append(f"wave of what is written: status {done.returncode}, {done.stderr.strip()!r}, or a dump that isn't the model's")
        self.counts["dumps"] += 1

    def tagged(self, folder, stimulus, rows):
        """The rows with tags of what is written, on a stimulus of the folder, are these."""
        done, lattice = self.call(), lattice_of(held(folder, "lattice.toml"))
        if done.returncode or rows_of(wave_of_taint(module_of(held(self.folder, "out.v")), held(folder, f"{stimulus}.txt"), lattice), lattice) != rows:
            self.differing.append(f"the rows with tags on {stimulus}.txt aren't the model's")
        self.counts["rows with tags"] += rows.count("\n")

    def name_of_top(self):
        return self.text[self.text.rindex("module ", 0, self.text.rindex("endmodule")) :].split("(")[0].split()[1]

    def same_row(self, cycle, row, own):
        """Each bit that the given module says."""
        for name, bits in row.items():
            for bit, beside in zip(bits, own[f"v_{name}"], strict=True):
                self.counts["bits" if bit in "01" else "bits that aren't said"] += 1
                if bit in "01" and bit != beside:
                    self.differing.append(f"cycle {cycle}: {name} is {bits}, and {own[f'v_{name}']} in what is written")
                    return


def cases(top, count, seed):
    """The name of each case, the text, and what is tried of it."""
    for name, text in BROUGHT_OVER.items():
        yield name, text, lambda case: case.same(random.Random(1))
    for name, (text, line) in REFUSED.items():
        yield name, text, lambda case, line=line: case.refused(line)
    folder = os.path.join(top, "examples", "verilog")
    for path in sorted(glob.glob(os.path.join(folder, "*.v"))):
        yield os.path.basename(path), held(path), lambda case: case.same(random.Random(1))
    for path in sorted(glob.glob(os.path.join(folder, "tagged", "*.rows"))):
        name, stimulus, _ = os.path.basename(path).split(".")
        yield os.path.basename(path), held(folder, f"{name}.v"), lambda case, stimulus=stimulus, path=path: case.tagged(folder, stimulus, held(path))
    for number in range(seed, seed + count):
        yield f"seed_{number}", random_verilog(random.Random(number)), lambda case, number=number: case.same(random.Random(number), is_drawn=True)


def main(top, count, seed, program=None):
    counts, wrong = Counter(), 0
    script = os.path.join(os.path.realpath(top), "flow", "to_subset")
    for name, text, tried in cases(top, count, seed):
        case = Case(script, program, name, text, counts)
        tried(case)
        if not case.differing:
            shutil.rmtree(case.folder)
            continue
        wrong += 1
        print(f"DIFFERS: {name}, files in {case.folder}")
        for what in case.differing[:3]:
            print(f"  {what}")
    print(", ".join(f"{what} {counts[what]}" for what in COUNTS))
    print(f"{wrong} cases differ" if wrong else "no case differs")
    return bool(wrong)


if __name__ == "__main__":
    sys.exit(main(sys.argv[1], int(sys.argv[2]), int(sys.argv[3]), *map(os.path.realpath, sys.argv[4:])))
