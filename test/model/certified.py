"""Modules certified by examples/certify: of designs drawn at random, of damaged ones, and of the examples. Usage: python3 -m model.certified PROGRAM TOP
[COUNT] [SEED] | examples [NAME..] | memories [CELLS..]"""

import glob
import os
import random
import shutil
import subprocess
import sys
import tempfile
import time
from collections import Counter

from certifying import Certifying, Subject
from gates import FLOWS
from solvers import SMT_SOLVERS, ToolFailed

from .damages import DAMAGES
from .design import design_of
from .lattice import lattice_of, text_of
from .random_designs import Designs
from .random_lattices import chain, diamond, pentagon, subsets, two
from .tokens import Fault

SECONDS = 600
NAMES = ("lattice.toml", "design.sapper", "top.v")


def compiled(program, lattice, design, module):
    """Whether the program writes the module of a design."""
    return subprocess.run([program, "compile", lattice, design, module], capture_output=True, check=False).returncode == 0


def put(folder, name, text):
    path = os.path.join(folder, name)
    with open(path, "w", encoding="ascii") as file:
        file.write(text)
    return path


# The examples.


def measured(certifying, subject, title, form, ask):
    """A row of the table: what asking took."""
    begun, before = time.monotonic(), len(certifying.measured)
    certifying.failed.clear()
    try:
        ask()
    except ToolFailed as error:
        print(f"| `{title}` | {form} | | {error} | |", flush=True)
        return False
    took = certifying.measured[before:]
    seconds = [seconds for seconds, _ in took]
    held = "" if certifying.holds else " NOT CERTIFIED"
    variables = f"{max(variables for _, variables in took):,}"
    print(f"| `{title}` | {form} | {len(took)} | {min(seconds):.1f} to {max(seconds):.1f} | {time.monotonic() - begun:.0f} | {variables} |{held}", flush=True)
    return certifying.holds


def examples(program, top, names):
    """The examples' modules, text and gates. Of a large lattice three levels are asked about."""
    failed = False
    with tempfile.TemporaryDirectory() as folder:
        module = os.path.join(folder, "top.v")
        print("| module | form | levels | seconds a level | seconds in all | variables |\n|---|---|---|---|---|---|")
        for design in sorted(glob.glob(f"{top}/examples/*/*.sapper")):
            title = f"{os.path.basename(os.path.dirname(design))}/{os.path.basename(design)[:-7]}"
            lattice = os.path.join(os.path.dirname(design), "lattice.toml")
            if (names and not any(name in title for name in names)) or not compiled(program, lattice, design, module):
                continue
            subject = Subject(lattice, design, module)
            levels = list(subject.lattice.levels)[:4]
            certifying = Certifying(subject, seconds=SECONDS, tell=lambda line: None)
            failed |= not measured(certifying, subject, title, "text", lambda: certifying.text(levels))
            for flow in FLOWS:
                failed |= not measured(certifying, subject, title, f"`{flow}`", lambda flow=flow: certifying.gates(levels, flow))
    return failed


# Memories.

MEMORY_LATTICE = text_of(*two())
MEMORY_DESIGN = """input a : {index};
input b : {index};
input d : 32;
mem m : 32[{cells}] enforced low;
mem k : 32[{cells}] dynamic;
reg x : 32 dynamic;
reg y : 32 dynamic;
state S enforced low {{
  x := m[a];
  y := k[b];
  setTag(m[b], tag(d));
  k[a] := d;
  goto S;
}}
"""


def memories(program, cells):
    """A module with two memories of 32 bits a cell, one enforced and one dynamic, by each solver that is here."""
    solvers = ["sat", *(name for name in SMT_SOLVERS if shutil.which(name))]
    print("| cells | solver | seconds a level | variables |\n|---|---|---|---|")
    with tempfile.TemporaryDirectory() as folder:
        paths = [os.path.join(folder, name) for name in NAMES]
        put(folder, NAMES[0], MEMORY_LATTICE)
        for count in cells:
            put(folder, NAMES[1], MEMORY_DESIGN.format(index=count.bit_length() - 1, cells=count))
            compiled(program, *paths)
            for name in solvers:
                certifying = Certifying(Subject(*paths), name, SECONDS, tell=lambda line: None)
                try:
                    certifying.text([0])
                except ToolFailed as error:
                    print(f"| {count:,} | {name} | {error} | |", flush=True)
                    continue
                (seconds, variables), = certifying.measured
                size = f"{variables:,}" if variables else ""
                print(f"| {count:,} | {name} | {seconds:.1f} | {size} |{'' if certifying.holds else ' NOT CERTIFIED'}", flush=True)
    return False


# Designs drawn at random.


def small_lattice(draw):
    return text_of(*draw.choice((two, two, diamond, pentagon, lambda: chain(3), lambda: subsets(2), lambda: subsets(3)))())


def small_design(draw, lattice, version):
    """The text of a well-formed design with numbers of a few bits and small memories."""
    while True:
        designs = Designs(draw, lattice, version)
        designs.widths = [draw.choice((1, 2, 3, 4)) for _ in range(2)]
        text = designs.text()
        try:
            design_of(text, lattice)
        except Fault:
            continue
        if "[4096]" not in text:
            return text


class Counts:
    """What came of all cases: lines that tell what is wrong, and by kind of damage how many there were, were told apart, and had a confirmed pair."""

    def __init__(self):
        self.wrong = []
        self.damaged, self.told, self.paired = Counter(), Counter(), Counter()
        self.versions, self.levels = Counter(), 0

    def note(self, seed, what):
        self.wrong.append(f"seed {seed}: {what}")
        print(self.wrong[-1], flush=True)


def one_case(program, seed, counts):
    """A design, its module, and one more that is damaged in one place."""
    draw = random.Random(seed)
    version = 1 + seed % 2
    lattice_text = small_lattice(draw)
    lattice = lattice_of(lattice_text)
    with tempfile.TemporaryDirectory() as folder:
        paths = [os.path.join(folder, name) for name in NAMES]
        put(folder, NAMES[0], lattice_text)
        put(folder, NAMES[1], small_design(draw, lattice, version))
        if not compiled(program, *paths):
            counts.note(seed, "the program doesn't compile the design")
            return
        levels = draw.sample(list(lattice.levels), min(3, len(lattice.levels)))
        lines = []
        certifying = Certifying(Subject(*paths), seconds=SECONDS, tell=lines.append)
        certifying.text(levels)
        counts.versions[version] += 1
        counts.levels += len(levels)
        if not certifying.holds:
            counts.note(seed, "not certified:\n" + "\n".join(lines))
        damaged_case(draw, paths, seed, counts)


def damaged_case(draw, paths, seed, counts):
    """The same module, damaged, at all levels until it is told apart."""
    with open(paths[2], encoding="ascii") as file:
        text = file.read()
    kinds = list(DAMAGES)
    draw.shuffle(kinds)
    kind, damaged = next((kind, damaged) for kind in kinds if (damaged := DAMAGES[kind](draw, text)))
    with open(paths[2], "w", encoding="ascii") as file:
        file.write(damaged)
    lines = []
    subject = Subject(*paths)
    certifying = Certifying(subject, seconds=SECONDS, tell=lines.append)
    certifying.text(subject.lattice.levels, until_found=True)
    counts.damaged[kind] += 1
    if certifying.holds:
        return
    counts.told[kind] += 1
    counts.paired[kind] += bool(certifying.found)
    if "UNANSWERED" in "".join(lines):
        counts.note(seed, "unanswered")
    if any(not against for _, _, against in certifying.found):
        counts.note(seed, f"a pair of the damaged module ({kind}) isn't confirmed:\n" + "\n".join(lines))


def drawn(program, count, seed):
    counts = Counts()
    for number in range(seed, seed + count):
        try:
            one_case(program, number, counts)
        except ToolFailed as error:
            counts.note(number, error)
    told, damaged = counts.told.total(), counts.damaged.total()
    print(f"{count} designs drawn at random, {counts.versions[1]} of version 1 and {counts.versions[2]} of version 2, at {counts.levels} levels in all: "
          f"{'all certified' if not counts.wrong else 'see above'}")
    for kind in DAMAGES:
        print(f"damaged, {kind}: {counts.told[kind]} of {counts.damaged[kind]} told apart, {counts.paired[kind]} by a pair that clocking confirms")
    print(f"damaged, in all: {told} of {damaged} told apart ({100 * told / max(damaged, 1):.0f} %)")
    return bool(counts.wrong) or 2 * told < damaged


def main():
    program, top, *words = sys.argv[1:]
    if words[:1] == ["examples"]:
        return examples(program, top, words[1:])
    if words[:1] == ["memories"]:
        return memories(program, [int(word) for word in words[1:]] or [16, 64, 256, 1024, 4096])
    try:
        count, seed = int((words or ["40"])[0]), int((words[1:] or ["1"])[0])
    except ValueError:
        print("Usage: test/certified [COUNT] [SEED] | examples [NAME..] | memories [CELLS..]", file=sys.stderr)
        return 2
    return drawn(program, count, seed)


if __name__ == "__main__":
    sys.exit(main())
