"""Measures the core on C programs that both owners run: instructions and cycles by the model, processor time by `sim`. Words: PROGRAM TOP."""

import os
import resource
import subprocess
import sys
import tempfile
import time

from . import model
from .core import Core

TRIES = 5


def ended(words):
    """How many instructions two owners of a program carry out until both have halted, and in which cycle the last one does."""
    counts = {"a": 0, "b": 0}
    owners = {name: Counted(words, counts, name) for name in counts}
    before, turn, cycle = model.BOOT + 1, 0, 0
    while owners:
        name = "ab"[turn % 2]
        for cycle, word in model.slice_of(owners[name], before) if name in owners else ():
            if word is None:
                del owners[name]
        before, turn = before + model.SLICE, turn + 1
    return sum(counts.values()), cycle


class Counted(model.Owner):
    """An owner whose instructions are counted, with those that are begun anew in the next slice."""

    def __init__(self, words, counts, name):
        super().__init__(words)
        self.counts, self.name = counts, name

    def step(self):
        self.counts[self.name] += 1
        return super().step()


def spent(command):
    """The least processor time that a command takes in some tries, in seconds."""
    best = None
    for _ in range(TRIES):
        before = resource.getrusage(resource.RUSAGE_CHILDREN)
        subprocess.run(command, stdout=subprocess.DEVNULL, check=True)
        after = resource.getrusage(resource.RUSAGE_CHILDREN)
        took = after.ru_utime + after.ru_stime - before.ru_utime - before.ru_stime
        best = took if best is None else min(best, took)
    return best


def main():
    program, top = sys.argv[1:]
    with tempfile.TemporaryDirectory() as folder:
        core = Core(program, top, folder)
        began = time.perf_counter()
        core.called("compile", core.lattice, core.design, core.module)
        wall = time.perf_counter() - began
        with open(core.module, encoding="ascii") as file:
            text = file.read()
        items = text.count("\nassign ") + text.count("\nalways ")
        sites = core.called("report", core.lattice, core.design).count("\nsite ")
        compiling = spent([program, "compile", core.lattice, core.design, core.module])
        print(f"compile: {1000 * compiling:.0f} ms of processor time, {1000 * wall:.0f} ms; {items} items, {sites} check sites")
        for name in ("sha256", "sort", "interpreter"):
            words = core.run.words_of(os.path.join(core.example, "programs", f"{name}.c"), folder)
            instructions, cycles = ended(words)
            boot, whole = (core.stimulus(words, words, count, f"stimulus{count}") for count in (model.BOOT, cycles))
            took = spent([program, "sim", core.lattice, core.module, whole]) - spent([program, "sim", core.lattice, core.module, boot])
            per = (cycles - model.BOOT) / instructions
            print(f"{name}: {instructions} instructions of both owners in {cycles - model.BOOT} cycles after boot, {per:.2f} cycles an instruction;", end=" ")
            print(f"sim: {(cycles - model.BOOT) / took:,.0f} cycles, {instructions / took:,.0f} instructions a second of processor time")


main()
