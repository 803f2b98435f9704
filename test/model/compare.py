"""The built program beside the model, on cases drawn at random. Usage: python3 -m model.compare PROGRAM COUNT SEED"""

import os
import shutil
import subprocess
import sys
import tempfile
from collections import Counter
from typing import NamedTuple

from .cases import case_of
from .design import design_of
from .parser import tree_of
from .streams import first_difference, seen_of_rows, seen_of_trace
from .texts import report, rows_and_trace
from .tokens import Fault

SECONDS = 60
LATTICE, DESIGN, MODULE, NOWHERE = "lattice.toml", "design.sapper", "top.v", "none.v"
STIMULI = ("one.txt", "other.txt")


class Answer(NamedTuple):
    """A status, what channel 1 gained, and the line on channel 2."""

    status: int
    output: str = ""
    line: str = ""


class Calls:
    """A folder, the program's answers to words whose files are in it, and what of them isn't what is wanted."""

    def __init__(self, program, name, counts):
        self.program = program
        self.counts = counts
        self.folder = tempfile.mkdtemp(prefix=f"{name}_")
        self.differing = []

    def put(self, name, text):
        with open(os.path.join(self.folder, name), "w", encoding="latin-1", newline="") as file:
            file.write(text)

    def call(self, *words):
        """What the program answers. A name of a file is one in the folder."""
        self.counts[words[0]] += 1
        try:
            done = subprocess.run([self.program, *words], capture_output=True, cwd=self.folder, timeout=SECONDS)
        except subprocess.TimeoutExpired:
            return Answer(-1, line=f"not ended within {SECONDS} seconds")
        return Answer(done.returncode, done.stdout.decode("latin-1"), done.stderr.decode("latin-1"))

    def expect(self, wanted, *words):
        """Calls the program, and notes where it doesn't answer what is wanted, which is kept in a file."""
        got = self.call(*words)
        if got != wanted:
            self.note(f"{' '.join(words)}: {told(got, wanted)}")
            self.put(f"wanted_{len(self.differing)}", wanted.output)
        return got

    def note(self, what):
        self.differing.append(what)


class Comparison(Calls):
    """One case in a folder of its own, by the program and by the model."""

    def __init__(self, program, seed, counts):
        super().__init__(program, f"random_designs_{seed}", counts)
        self.case = case_of(seed)

    def run(self):
        """What differs, in words."""
        self.put(LATTICE, self.case.lattice_text)
        self.put(DESIGN, self.case.text)
        for name, stimulus in zip(STIMULI, self.case.stimuli):
            self.put(name, stimulus)
        runs = [rows_and_trace(self.case.design, stimulus) for stimulus in self.case.stimuli]
        self.expect(Answer(0, report(self.case.design)), "report", LATTICE, DESIGN)
        outputs = self.rows_and_traces(runs)
        self.module(runs)
        canonical = self.canonical_text(DESIGN, self.case.design.tree)
        self.expect(Answer(0, runs[0][0]), "run", LATTICE, canonical, STIMULI[0])
        self.two_streams(outputs)
        for number, (text, fault) in enumerate(self.case.faulty, 1):
            self.faulty(number, text, fault)
        self.count(runs)
        return self.differing

    def rows_and_traces(self, runs):
        """What the program writes of each run."""
        outputs = []
        for stimulus, (rows, trace) in zip(STIMULI, runs):
            answers = self.expect(Answer(0, rows), "run", LATTICE, DESIGN, stimulus), self.expect(Answer(0, trace), "trace", LATTICE, DESIGN, stimulus)
            outputs.append([answer.output for answer in answers])
        return outputs

    def module(self, runs):
        """The compiled module has the design's rows."""
        self.expect(Answer(0), "compile", LATTICE, DESIGN, MODULE)
        for stimulus, (rows, _) in zip(STIMULI, runs):
            self.expect(Answer(0, rows), "sim", LATTICE, MODULE, stimulus)

    def canonical_text(self, name, tree):
        """The canonical text has the same tree, and is its own canonical text. Answers the name of its file."""
        canonical, file = self.call("fmt", name), f"canonical_{name}"
        self.put(file, canonical.output)
        if (canonical.status, canonical.line) != (0, "") or not has_tree(canonical.output, tree):
            self.note(f"fmt {name}: status {canonical.status}, {canonical.line!r}, or another tree")
        self.expect(canonical, "fmt", file)
        return file

    def two_streams(self, outputs):
        """Whether the streams agree at the case's level; and at each level where they do, that what is seen of both runs is the same."""
        lattice = self.case.design.lattice
        name = lattice.names[self.case.level]
        apart = first_difference(*self.case.streams, self.case.level, lattice)
        agree = Answer(0, f"agree at {name} for {len(self.case.streams[0])} cycles\n")
        self.expect(Answer(8, line=apart + "\n") if apart else agree, "twin", LATTICE, DESIGN, *STIMULI, name)
        self.counts["streams apart" if apart else "streams that agree"] += 1
        for level in lattice.levels:
            if first_difference(*self.case.streams, level, lattice) is None:
                self.what_is_seen(outputs, level)

    def what_is_seen(self, outputs, level):
        lattice = self.case.design.lattice
        seen = [(seen_of_rows(rows, level, lattice), seen_of_trace(trace, level, lattice)) for rows, trace in outputs]
        self.counts["levels at which streams agree"] += 1
        if seen[0] != seen[1]:
            self.note(f"the streams agree at {lattice.names[level]}, and what is seen there of the runs differs")

    def faulty(self, number, text, fault):
        """An edited design: its first fault, or its report where no rule is broken."""
        name = f"edited_{number}.sapper"
        self.put(name, text)
        self.counts[fault.code if fault else "no fault"] += 1
        refused = Answer(1, line=f"design: {fault}\n")
        if fault and fault.code in ("E1", "E2"):
            self.expect(refused, "fmt", name)
        else:
            self.canonical_text(name, tree_of(text))
        if fault is None:
            self.expect(Answer(0, report(design_of(text, self.case.design.lattice))), "report", LATTICE, name)
            return
        calls = (("report", LATTICE, name), ("run", LATTICE, name, STIMULI[0]), ("compile", LATTICE, name, NOWHERE))
        self.expect(refused, *calls[number % len(calls)])
        if os.path.exists(os.path.join(self.folder, NOWHERE)):
            self.note("compile of a refused design writes a module")

    def count(self, runs):
        self.counts[f"version {self.case.design.tree.version}"] += 1
        self.counts[self.case.shape] += 1
        self.counts["rows"] += sum(rows.count("\n") for rows, _ in runs)
        self.counts["refusals"] += sum(trace.count("\n") for _, trace in runs)


def has_tree(text, tree):
    try:
        return tree_of(text) == tree
    except Fault:
        return False


def told(got, wanted):
    """Where two answers first differ."""
    for name, one, other in zip(("status", "channel 1", "channel 2"), got, wanted):
        if one != other:
            return f"{name} has {first_line(one, other)} in place of {first_line(other, one)}"


def first_line(one, other):
    """The first line of a text that isn't that of another text; a status as it is."""
    if isinstance(one, int):
        return one
    lines, others = one.split("\n"), other.split("\n")
    return next((repr(line) for line, beside in zip(lines, others + [None] * len(lines)) if line != beside), "nothing more")


COUNTS = (
    ("designs", ("version 1", "version 2")),
    ("lattices", ("two", "diamond", "pentagon", "chain", "subsets of 3", "subsets of 5")),
    ("calls", ("run", "trace", "report", "compile", "sim", "fmt", "twin")),
    ("runs", ("rows", "refusals", "streams that agree", "streams apart", "levels at which streams agree")),
    ("edited designs", (*(f"E{number}" for number in range(1, 18) if number != 13), "no fault")),
)


def main(program, count, seed):
    """Compares so many cases, from a seed on. Folders of cases that differ are kept."""
    counts, wrong = Counter(), 0
    for number in range(seed, seed + count):
        comparison = Comparison(program, number, counts)
        differing = comparison.run()
        if not differing:
            shutil.rmtree(comparison.folder)
            continue
        wrong += 1
        print(f"DIFFERS: seed {number}, files in {comparison.folder}")
        for what in differing:
            print(f"  {what}")
    for what, kinds in COUNTS:
        print(f"{what}: " + ", ".join(f"{kind} {counts[kind]}" for kind in kinds))
    print(f"{wrong} of {count} cases differ" if wrong else f"none of {count} cases differs")
    return bool(wrong)


if __name__ == "__main__":
    sys.exit(main(sys.argv[1], int(sys.argv[2]), int(sys.argv[3])))
