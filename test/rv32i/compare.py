"""Compares the core with the model, and the owners' lines with each other where the neighbours are exchanged. Words: PROGRAM TOP COUNT SEED."""

import os
import random
import shutil
import subprocess
import sys
import tempfile

from . import damages, model, programs
from .core import Core
from .encoding import constant, jal, jalr, load_form, store_form

# The cycles of a run of two sequences, of wild memories, and of a word that may halt its owner.
LONG, WILD, SHORT = 9000, 12000, 4300
HOST_HEADER = """#ifndef OWNER_H
#define OWNER_H
#include <stdio.h>
#include <stdlib.h>
static inline void put(unsigned word) { printf("%08x\\n", word); }
static inline void halt(void) { exit(0); }
#endif
"""


def stopped(what, expected, got):
    """Ends the comparison with the first line that differs."""
    at = next((at for at, (one, other) in enumerate(zip(expected, got)) if one != other), min(len(expected), len(got)))
    one, other = (lines[at] if at < len(lines) else "nothing more" for lines in (expected, got))
    sys.exit(f"{what}: line {at + 1} is to be {one}, and is {other}")


def compare(core, what, words_a, words_b, cycles):
    """How many lines the core and the model have in common, which are all."""
    expected, got = model.lines(words_a, words_b, cycles), core.lines(words_a, words_b, cycles)
    if got != expected:
        stopped(what, expected, got)
    return len(got)


def edges():
    """Programs of few words: all opcodes, instructions or not, and accesses and jumps at the edges of what is defined."""
    words = [opcode | 5 << 7 | kind << 12 | 3 << 15 | high << 25 for opcode in range(3, 128, 4) for kind in range(8) for high in highs(opcode)]
    found = [programs.undefined([word]) for word in [*words, 0, 1, 2, 0x12, 0x31, 0xFFFFFFFF, 0x80000000]]
    for address in (0, 1, 2, 3, 0x3FFC, 0x3FFD, 0x3FFE, 0x3FFF, 0x4000, 0x8000, 0xFFFC, 0x10000, 0x10001, 0x10002, 0x10004, 0x80000000, 0xFFFFFFFC):
        for offset in (0, -1):
            base = constant(4, (address - offset) % (1 << 32))
            found += [programs.undefined([*base, load_form(name, 5, 4, offset)]) for name in ("lb", "lh", "lw", "lbu", "lhu")]
            found += [programs.undefined([*base, store_form(name, 4, 4, offset)]) for name in ("sb", "sh", "sw")]
        found.append(programs.undefined([*constant(4, address), jalr(5, 4, 0)]))
    found += [programs.undefined([jal(5, offset)]) for offset in (2, 6, -2, -20, -4096, 0x4000, 0xFFFFE, -0x100000)]
    return [*found, programs.last_word()]


def highs(opcode):
    """The highest seven bits of the words of an opcode that are tried: many where they say what is done."""
    return (0, 1, 16, 32, 33, 64, 127) if opcode in (0x13, 0x33) else (0, 96)


def kinds(count, seed):
    """What is compared: of each kind its name, pairs of programs and the cycles of a run."""
    draws = [random.Random(f"riscv {one}") for one in range(seed, seed + count)]
    yield "sequences of all instructions", ((programs.sequence(draw), programs.sequence(draw)) for draw in draws), LONG
    yield "memories of wild words", ((programs.wild(draw), programs.wild(draw)) for draw in draws), WILD
    found = edges()
    random.Random(f"edges {seed}").shuffle(found)
    pairs = list(zip(found[::2], found[1::2] + found[:1]))
    yield "words and addresses at the edges", pairs if count >= 100 else pairs[: 5 * count], SHORT


def compare_kinds(core, count, seed):
    for name, pairs, cycles in kinds(count, seed):
        runs = shown = 0
        for runs, (words_a, words_b) in enumerate(pairs, 1):
            shown += compare(core, f"{name}, pair {runs}", words_a, words_b, cycles)
        print(f"{name}: {runs} pairs, {shown} lines with cycles as in the model")


def host_lines(source, folder):
    """What a C program puts on this machine, as lines of owner a."""
    with open(os.path.join(folder, "owner.h"), "w", encoding="ascii") as file:
        file.write(HOST_HEADER)
    made = os.path.join(folder, "host")
    # (a quoted header is looked for beside the source first, where there is none for these)
    subprocess.run(["gcc", "-O1", "-fwrapv", "-w", "-I", folder, "-o", made, source], check=True)
    return [f"a {line}" for line in subprocess.run([made], stdout=subprocess.PIPE, text=True, check=True).stdout.split()] + ["a halted"]


def sources(top):
    """The C programs that end by themselves, and those that are neighbours only."""
    ours, theirs = os.path.join(top, "examples", "riscv", "programs"), os.path.join(top, "test", "rv32i", "c")
    ending = [os.path.join(ours, f"{name}.c") for name in ("sha256", "sort", "interpreter")]
    ending += [os.path.join(theirs, name) for name in sorted(os.listdir(theirs))]
    return ending, [os.path.join(ours, f"{name}.c") for name in ("pry", "loop", "scribble", "jump", "illegal")]


def compare_c(core, top, folder):
    ending, neighbours = sources(top)
    environment = dict(os.environ, SAPPER=core.program)
    for place, source in enumerate(ending):
        expected = host_lines(source, folder)
        neighbour = neighbours[place % len(neighbours)]
        words = [os.path.join(top, "examples", "riscv", "run"), "--cycles", source, neighbour, "2000000" if "arithmetic" in source else "600000"]
        got = [line.partition(" ") for line in subprocess.run(words, stdout=subprocess.PIPE, text=True, check=True, env=environment).stdout.splitlines()]
        mine = [rest for _, _, rest in got if rest.startswith("a ")]
        if mine != expected:
            stopped(os.path.basename(source), expected, mine)
        cycles = next(int(cycle) for cycle, _, rest in got if rest == "a halted")
        print(f"{os.path.basename(source)} beside {os.path.basename(neighbour)}: {len(mine)} lines as on this machine, in {cycles} cycles")


def exchange(core, count, seed):
    """Gives an owner other neighbours: its lines with their cycles, what it sees of rows, and what `twin` says."""
    seen = 0
    for one in range(seed, seed + count):
        draw = random.Random(f"neighbours {one}")
        mine = programs.sequence(draw) if one % 2 else programs.wild(draw)
        level = "ab"[one // 2 % 2]
        neighbours = [[], [jal(0, 0)], programs.wild(draw), [draw.getrandbits(32) for _ in range(4096)], programs.sequence(draw)]
        first, second = draw.sample(neighbours, 2)
        paths = []
        for place, theirs in enumerate((first, second)):
            pair = (mine, theirs) if level == "a" else (theirs, mine)
            paths.append(core.stimulus(*pair, LONG, f"neighbours{place}"))
        told = core.called("twin", core.lattice, core.design, *paths, level)
        if told != f"agree at {level} for {LONG} cycles":
            sys.exit(f"neighbours {one}: twin says '{told}'")
        refused = core.called("trace", core.lattice, core.design, paths[0])
        if refused:
            sys.exit(f"neighbours {one}: refused: {refused.splitlines()[0]}")
        rows, others = (core.seen(path, level) for path in paths)
        if rows != others:
            stopped(f"neighbours {one}", rows, others)
        lines, others = ([line for line in core.run.shown(core.rows(path)) if line[1] == level] for path in paths)
        if lines != others:
            stopped(f"neighbours {one}", lines, others)
        seen += len(lines)
    print(f"{count} owners with two neighbours each: their {seen} lines with cycles, and what they see of {count * LONG} rows, are the same; nothing is refused")


def compare_untagged(core, count, seed):
    """The core without its tags, which examples/riscv/module makes of it, has the same lines."""
    module, core.module = core.module, os.path.join(core.folder, "untagged.v")
    subprocess.run([os.path.join(core.example, "module"), "--untagged", core.module], check=True, env=dict(os.environ, SAPPER=core.program))
    for name, pairs, cycles in kinds(count, seed):
        for place, (words_a, words_b) in enumerate(pairs):
            if place < count:
                compare(core, f"without tags: {name}, pair {place + 1}", words_a, words_b, cycles)
    core.module = module
    print(f"the core without tags: {count} pairs of each kind as in the model")


def differs(core):
    """Whether a core does something else than the model."""
    for _, pairs, cycles in kinds(100, 1):
        # (each kind shows much in its first pairs, and the edges one thing each)
        for place, (words_a, words_b) in enumerate(pairs):
            if cycles != SHORT and place == 6:
                break
            if core.lines(words_a, words_b, cycles) != model.lines(words_a, words_b, cycles):
                return True
    return False


def tell_apart(program, top, core, folder):
    """Damages the core, and fails where that isn't told."""
    with open(core.design, encoding="ascii") as file:
        text = file.read()
    missed = []
    for name, old, new in damages.DAMAGES:
        damaged = Core(program, top, folder, text.replace(old, new)) if old in text else None
        if not damaged or damaged.refused:
            sys.exit(f"a damage, '{name}', {'is none of the core' if not damaged else damaged.refused}")
        if not differs(damaged):
            missed.append(name)
    for name in missed:
        print(f"a damage is told by no comparison: {name}")
    if missed:
        sys.exit(1)
    print(f"{len(damages.DAMAGES)} damaged cores: each is told apart")


def main():
    program, top, count, seed = sys.argv[1], sys.argv[2], int(sys.argv[3]), int(sys.argv[4])
    with tempfile.TemporaryDirectory() as folder:
        core = Core(program, top, folder)
        if core.refused:
            sys.exit(f"compile: {core.refused}")
        compare_kinds(core, count, seed)
        if all(map(shutil.which, ("gcc", core.run.COMPILER, core.run.CUTTER))):
            compare_c(core, top, folder)
        else:
            print("C programs: skipped, no gcc or no riscv64-unknown-elf-gcc")
        exchange(core, max(count // 5, 1), seed)
        compare_untagged(core, max(count // 20, 1), seed)
        tell_apart(program, top, core, folder)


if __name__ == "__main__":
    main()
