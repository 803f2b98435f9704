"""`link`, and `sim` of what it writes, beside the model of linked designs. Usage: python3 -m model.compare_links PROGRAM TOP COUNT SEED"""

import os
import random
import re
import sys

from .compare import Answer
from .examples import held
from .link_examples import agree, linked_in as linked_in_example, seen, told
from .link_table import FILES, LATTICE, RUNS, TWO, WIRE, bytes_of, files_over, linked, linked_in, refused, system
from .links import (
    CompositeRun, PartFault, SystemFault, inputs_in_cycle, linked_of, numbers_between_cycles, numbers_in_cycle, rows_and_trace, stream_of,
)
from .modules import Clocked, module_of
from .random_lattices import random_lattice
from .random_links import damaged, random_parts, random_wires, stimuli_of
from .writing import BEFORE, LATTICE_FILE, Writing, compared

SYSTEM, OUT, STIMULI = "system.toml", "out.v", ("one.txt", "other.txt")
DAMAGES_OF_A_SYSTEM = 12
HELPING = re.compile(r"n\d+")


class Links(Writing):
    """Calls over systems."""

    def put_bytes(self, name, data):
        with open(os.path.join(self.folder, name), "wb") as file:
            file.write(data)

    def put_files(self, files):
        for name, text in files.texts.items():
            self.put(name, text)

    def refused(self, answer, system_file=SYSTEM):
        """A system that is refused: OUT stands as before."""
        self.put(OUT, BEFORE)
        self.expect(answer, "link", LATTICE_FILE, system_file, OUT)
        if self.held(OUT) != BEFORE:
            self.note("OUT isn't as it was before the refusal")
        self.counts[answer.line[8:10] if answer.status == 9 else f"status {answer.status}"] += 1

    def linked(self, system_in, stimuli, out=OUT):
        """A system without a fault: the module, and what it does on stimuli. Answers the rows and the trace of each."""
        self.expect(Answer(0), "link", LATTICE_FILE, SYSTEM, out)
        text = self.held(out)
        self.counts["parts"] += len(system_in.parts)
        self.counts["wires of systems"] += len(system_in.feeds)
        module = module_of(text)
        self.interface(system_in, module)
        runs = [rows_and_trace(system_in, stimulus) for stimulus in stimuli]
        for name, stimulus, (rows, trace) in zip(STIMULI, stimuli, runs):
            self.put(name, stimulus)
            self.expect(Answer(0, rows), "sim", LATTICE_FILE, out, name)
            self.each_cycle(system_in, module, stimulus)
            self.counts["rows"] += rows.count("\n")
            self.counts["refusals"] += trace.count("\n")
        return runs

    def interface(self, system_in, module):
        """Name and ports, and that all else that is declared is of a part or a helping wire."""
        if module.name != "top":
            self.note(f"the module's name is {module.name}")
        if module.ports != system_in.ports():
            wanted = zip(module.ports + [None] * len(system_in.ports()), system_in.ports() + [None] * len(module.ports))
            self.note("the ports: {} in place of {}".format(*next((one, other) for one, other in wanted if one != other)))
        own = {port.name for port in system_in.ports()} | set(numbers_between_cycles(CompositeRun(system_in)))
        own |= {f"{letter}_{system_in.parts[part][0]}_{name}" for part, name in system_in.feeds for letter in "vt"}
        strange = [name for name in module.widths if name not in own and not HELPING.fullmatch(name)]
        if strange:
            self.note(f"declared, and neither of a part nor a helping wire: {strange[:5]}")
        missing = sorted(own - set(module.widths))
        if missing:
            self.note(f"not declared: {missing[:5]}")

    def each_cycle(self, system_in, module, stimulus):
        """The module by the model of modules, beside the run: registers, memories, wires of fed inputs and of check sites."""
        run, clocked = CompositeRun(system_in), Clocked(module)
        for cycle, inputs in enumerate(stream_of(stimulus, system_in), 1):
            clocked.cycle(inputs_in_cycle(system_in, inputs))
            refusals = run.cycle(inputs)
            got = clocked.values | clocked.memories
            wanted = numbers_in_cycle(run, refusals) | numbers_between_cycles(run)
            wrong = [name for name, number in wanted.items() if got.get(name) != number]
            if wrong:
                self.note(f"cycle {cycle}: {wrong[0]} is {got.get(wrong[0])} in place of {wanted[wrong[0]]}, and {len(wrong) - 1} more")
                return
            self.counts["numbers"] += len(wanted)

    def agreement(self, system_in, stimuli, runs):
        """At each level at which the streams agree, what is seen of both runs is the same."""
        lattice, streams = system_in.lattice, [stream_of(stimulus, system_in) for stimulus in stimuli]
        for level in lattice.levels if runs else ():
            if not agree(*streams, level, lattice):
                self.counts["levels apart"] += 1
                continue
            self.counts["levels at which streams agree"] += 1
            one, other = (seen(run, level, lattice) for run in runs)
            if one != other:
                self.note(f"the streams agree at {lattice.names[level]}, and what is seen there of the runs differs")


# What was worked out by hand.


def by_hand(links, _):
    links.lattice(LATTICE)
    for name, text in FILES.items():
        links.put(name, text)
    for one in refused():
        links.put_bytes(SYSTEM, bytes_of(one.text))
        links.refused(Answer(one.status, line=f"{one.line}\n"))
    for text in linked():
        links.put_bytes(SYSTEM, bytes_of(text))
        links.linked(linked_of(bytes_of(text), files_over(LATTICE)), [])
    for one in RUNS:
        links.lattice(one.lattice)
        links.put(SYSTEM, system(one.parts, one.wires))
        links.linked(linked_in(one), [one.stimulus])
        links.expect(Answer(0, one.rows), "sim", LATTICE_FILE, OUT, STIMULI[0])


# Files.


def files(links, _):
    """The order in which files are read; files that are one; files that aren't there, or can't be written."""
    links.lattice(LATTICE)
    for name, text in FILES.items():
        links.put(name, text)
    good = system(TWO, [WIRE])
    links.put(SYSTEM, good)
    links.put("refused.toml", 'levels = ["low"]\nbelow = []\n')
    links.put("refused_system.toml", system((), ()))
    links.put(OUT, BEFORE)
    words = Answer(2, line="words\n")
    for answer, *operands in (
        (Answer(3, line="lattice: L3 1\n"), "refused.toml", "none.toml", OUT),
        (Answer(3, line="lattice: L2\n"), SYSTEM, "none.toml", OUT),
        (Answer(6, line="desk: none.toml\n"), "none.toml", "refused_system.toml", OUT),
        (Answer(6, line="desk: none.toml\n"), LATTICE_FILE, "none.toml", OUT),
        (Answer(9, line="system: K2\n"), LATTICE_FILE, LATTICE_FILE, OUT),
        (Answer(9, line="system: K1\n"), LATTICE_FILE, "adds.sapper", OUT),
        (Answer(9, line="system: K3 0\n"), LATTICE_FILE, "refused_system.toml", "none/out.v"),
        (words, LATTICE_FILE, SYSTEM),
        (words, LATTICE_FILE, SYSTEM, OUT, OUT),
        (words, LATTICE_FILE, SYSTEM, "-out.v"),
        (words, "-lattice", SYSTEM, OUT),
        (words, LATTICE_FILE, "-system", OUT),
        (words,),
    ):
        links.expect(answer, "link", *operands)
    if links.held(OUT) != BEFORE:
        links.note("OUT isn't as it was before the refusals")
    links.expect(Answer(6, line="desk: none/out.v\n"), "link", LATTICE_FILE, SYSTEM, "none/out.v")
    os.mkdir(os.path.join(links.folder, "folder"))
    links.expect(Answer(6, line="desk: folder\n"), "link", LATTICE_FILE, SYSTEM, "folder")
    links.put("folder_for_a_part.toml", system([("p", "adds.sapper"), ("q", "folder")], [("", "")]))
    links.expect(Answer(6, line="desk: folder\n"), "link", LATTICE_FILE, "folder_for_a_part.toml", OUT)
    # a part's file isn't looked for beside the system
    links.put("folder/system.toml", good)
    links.expect(Answer(0), "link", LATTICE_FILE, "folder/system.toml", OUT)
    wanted = links.held(OUT)
    links.expect(Answer(0, RUNS[0].rows), "sim", LATTICE_FILE, OUT, put_stimulus(links, RUNS[0].stimulus))
    one_file(links, good, wanted)
    no_room(links, wanted)


def put_stimulus(links, text):
    links.put(STIMULI[0], text)
    return STIMULI[0]


def one_file(links, good, wanted):
    """OUT is one of the files that are read."""
    for name, text in ((SYSTEM, good), (LATTICE_FILE, LATTICE), ("adds.sapper", FILES["adds.sapper"])):
        links.expect(Answer(0), "link", LATTICE_FILE, SYSTEM, name)
        if links.held(name) != wanted:
            links.note(f"link with {name} as OUT: it doesn't hold the module")
        links.put(name, text)


def no_room(links, wanted):
    """A full device, and a file that may not grow beyond some sizes: a prefix of the module stands there."""
    if os.path.exists("/dev/full"):
        links.expect(Answer(6, line="desk: /dev/full\n"), "link", LATTICE_FILE, SYSTEM, "/dev/full")
    for most in (0, 1, 100, len(wanted) - 1, len(wanted)):
        links.put(OUT, BEFORE[:most])
        got = links.limited(most, "link", LATTICE_FILE, SYSTEM, OUT)
        if got != ((6, f"desk: {OUT}\n") if most < len(wanted) else (0, "")):
            links.note(f"link with {most} bytes for OUT: {got}")
        if not wanted.startswith(links.held(OUT)) or got[0] == 0 and links.held(OUT) != wanted:
            links.note(f"link with {most} bytes for OUT: it doesn't hold a prefix of the module, or not all of it")


# The examples.


def examples(links, top):
    """Each system of the examples on each stimulus of which rows are told."""
    os.symlink(os.path.abspath(os.path.join(top, "examples")), os.path.join(links.folder, "examples"))
    for path, folder, name, stimulus in told(top):
        links.lattice(held(folder, "lattice.toml"))
        links.put(SYSTEM, held(folder, f"{name}.toml"))
        runs = links.linked(linked_in_example(top, folder, name), [held(folder, f"{stimulus}.txt")])
        if [rows for rows, _ in runs] != [held(path)]:
            links.note(f"the model's rows aren't those of {path}")


# Drawn at random.


def random_case(links, seed):
    draw = random.Random(seed)
    shape, text = random_lattice(draw)
    files, parts = random_parts(draw, links.lattice(text))
    wires = random_wires(draw, [(name, files.design(file)) for name, file in parts])
    links.put_files(files)
    links.put(SYSTEM, system(parts, wires))
    system_in = linked_of(system(parts, wires).encode(), files)
    stimuli = stimuli_of(draw, system_in)
    links.agreement(system_in, stimuli, links.linked(system_in, stimuli))
    links.counts[shape] += 1
    links.counts[f"{len(parts)}"] += 1
    for _ in range(DAMAGES_OF_A_SYSTEM):
        damage(links, *damaged(draw, parts, wires, files))


def damage(links, data, files):
    """A system with something in it exchanged: its first fault, or none."""
    links.put_files(files)
    links.put_bytes(SYSTEM, data)
    known = len(links.differing)
    try:
        system_in = linked_of(data, files)
    except SystemFault as fault:
        links.refused(Answer(9, line=f"system: {fault}\n"))
    except PartFault as fault:
        links.refused(Answer(1, line=f"{fault}\n"))
    except FileNotFoundError as missing:
        links.refused(Answer(6, line=f"desk: {missing}\n"))
    else:
        links.linked(system_in, [])
        links.counts["no fault"] += 1
    if len(links.differing) > known:
        links.put_bytes(f"damaged_{len(links.differing)}.toml", data)


COUNTS = (
    ("calls", ("link", "sim")),
    ("systems", ("parts", "wires of systems")),
    ("parts of a system at random", tuple(str(number) for number in range(1, 9))),
    ("lattices at random", ("two", "diamond", "pentagon", "chain", "subsets of 3", "subsets of 5")),
    ("runs", ("rows", "refusals", "numbers", "levels at which streams agree", "levels apart")),
    ("refused systems by their first fault", (*(f"K{number}" for number in range(1, 10)), "status 1", "status 6", "no fault")),
)


def main(program, top, count, seed):
    cases = [(case.__name__, case, top) for case in (by_hand, files, examples)]
    cases += [(f"seed_{number}", random_case, number) for number in range(seed, seed + count)]
    return compared(Links, program, cases, COUNTS)


if __name__ == "__main__":
    sys.exit(main(os.path.realpath(sys.argv[1]), sys.argv[2], int(sys.argv[3]), int(sys.argv[4])))
