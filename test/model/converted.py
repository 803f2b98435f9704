"""Dumps through GTKWave's converters, vcd2fst and fst2vcd: they are to say nothing, and the changes are to be the same behind them.

Usage: python3 -m model.converted PROGRAM TOP
"""

import glob
import os
import random
import re
import subprocess
import sys
import tempfile

from .compare_waves import chain
from .lattice import lattice_of
from .modules import module_of
from .random_lattices import random_lattice
from .random_modules import random_module, random_stimulus
from .wave_table import LATTICE

COUNT = 20
DIGITS = re.compile("b([01]+) (.+)|([01])(.+)")


def changes_of(dump):
    """Each variable's width, and for each time and name the number that it takes; times without a change are nowhere in it."""
    names, widths, changes, time = {}, {}, {}, None
    for line in dump.splitlines():
        variable = re.fullmatch(r"\$var reg (\d+) (\S+) (\w+) \$end", line)
        change = DIGITS.fullmatch(line)
        if variable:
            names[variable[2]], widths[variable[3]] = variable[3], int(variable[1])
        elif line.startswith("#"):
            time = int(line[1:])
        elif change and time is not None:
            changes[time, names[change[2] or change[4]]] = int(change[1] or change[3], 2)
    return widths, changes


class Converter:
    """A folder in which dumps are written and converted."""

    def __init__(self, program, folder):
        self.program, self.folder = program, folder
        self.wrong, self.changes = [], 0

    def at(self, name):
        return os.path.join(self.folder, name)

    def put(self, name, text):
        with open(self.at(name), "w", encoding="ascii") as file:
            file.write(text)
        return self.at(name)

    def said(self, what, *words):
        """What a tool writes on channel 1, where it ends well and says nothing else."""
        done = subprocess.run(words, capture_output=True, text=True, check=False)
        if done.returncode or done.stderr:
            self.wrong.append(f"{what}, {os.path.basename(words[0])}: status {done.returncode}, {done.stderr.strip()[:300]!r}")
        return done.stdout

    def dump(self, what, lattice, module, stimulus):
        """The dump of a module on a stimulus, there and back."""
        dump, packed = self.at("out.vcd"), self.at("out.fst")
        told = self.said(what, self.program, "wave", lattice, module, stimulus, dump)
        told += self.said(what, "vcd2fst", dump, packed)
        if told:
            self.wrong.append(f"{what}: {told.strip()[:300]!r} is said")
        again = changes_of(self.said(what, "fst2vcd", packed))
        with open(dump, encoding="ascii") as file:
            before = changes_of(file.read())
        if again != before:
            self.wrong.append(f"{what}: the changes aren't the same")
        self.changes += len(before[1])


def examples(top):
    """Each example with wanted rows: lattice, design and stimulus."""
    for path in sorted(glob.glob(os.path.join(top, "examples", "*", "wanted", "*.*.run"))):
        folder, (name, stimulus, _) = os.path.dirname(os.path.dirname(path)), os.path.basename(path).split(".")
        yield f"{folder}/lattice.toml", f"{folder}/{name}.sapper", f"{folder}/{stimulus}.txt"


def convert(converter, top):
    """Answers how many dumps were converted."""
    count = 0
    for lattice, design, stimulus in examples(top):
        converter.said(design, converter.program, "compile", lattice, design, converter.at("top.v"))
        converter.dump(design, lattice, converter.at("top.v"), stimulus)
        count += 1
    for seed in range(COUNT):
        draw = random.Random(seed)
        text = random_lattice(draw)[1]
        lattice = lattice_of(text)
        module = random_module(draw, lattice)
        stimulus = converter.put("stimulus.txt", random_stimulus(draw, module_of(module), lattice))
        converter.dump(f"random module {seed}", converter.put("lattice.toml", text), converter.put("random.v", module), stimulus)
        count += 1
    for registers in (1, 94, 95, 8837):
        stimulus = converter.put("stimulus.txt", "5\n5\n0\n255 *300\n")
        converter.dump(f"{registers} registers", converter.put("lattice.toml", LATTICE), converter.put("chain.v", chain(registers)), stimulus)
        count += 1
    return count


def main(program, top):
    with tempfile.TemporaryDirectory() as folder:
        converter = Converter(os.path.realpath(program), folder)
        count = convert(converter, top)
    for what in converter.wrong:
        print(what)
    print(f"{count} dumps through vcd2fst and fst2vcd: {converter.changes} changes; {len(converter.wrong) or 'nothing'} wrong")
    return bool(converter.wrong)


if __name__ == "__main__":
    sys.exit(main(sys.argv[1], sys.argv[2]))
