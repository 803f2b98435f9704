"""Linked designs: a system file with its faults K1 to K9, and what its parts do together, by docs/FORMATS.md and docs/LANGUAGE.md."""

import re
import tomllib
from typing import NamedTuple

from .design import design_of
from .expressions import Tagged
from .modules import Port, tag_width
from .run import Run
from .streams import cycles_of, fields_of
from .tokens import KEYWORDS, Fault
from .tree import Input, Memory, Register, State

MOST_PARTS = 8
LONGEST_NAME = 40
PART_NAME = re.compile(r"[A-Za-z][A-Za-z0-9]*")


class SystemFault(Exception):
    """The first fault of a system: its code and, but for K1 and K2, a number."""

    def __init__(self, code, number=None):
        super().__init__(code, number)
        self.code = code
        self.number = number

    def __str__(self):
        return self.code if self.number is None else f"{self.code} {self.number}"


class PartFault(Exception):
    """The first fault of the design of a part."""

    def __init__(self, name, fault):
        super().__init__(name, fault)
        self.name = name
        self.fault = fault

    def __str__(self):
        return f"part {self.name}: {self.fault}"


class System(NamedTuple):
    """What a system file says: the name and the file of each part, and the strings of each wire."""

    parts: list
    wires: list


# The system file.


def system_of(data):
    """The system of a file's bytes, or the first of its faults that are there before a part is read."""
    try:
        document = tomllib.loads(data.decode("utf-8"))
    except (UnicodeDecodeError, tomllib.TOMLDecodeError) as error:
        raise SystemFault("K1") from error
    if set(document) != {"parts", "wires"} or not are_rows(document["parts"], (2,)) or not are_rows(document["wires"], (2, 3)):
        raise SystemFault("K2")
    parts, wires = document["parts"], document["wires"]
    if not 1 <= len(parts) <= MOST_PARTS:
        raise SystemFault("K3", len(parts))
    for number, (name, _) in enumerate(parts, 1):
        if not is_part_name(name) or name in [earlier for earlier, _ in parts[: number - 1]]:
            raise SystemFault("K4", number)
    return System(parts, wires)


def are_rows(value, lengths):
    """Whether this is an array of arrays of strings, each of one of these lengths."""
    return isinstance(value, list) and all(isinstance(row, list) and len(row) in lengths and all(isinstance(one, str) for one in row) for row in value)


def is_part_name(name):
    return bool(PART_NAME.fullmatch(name)) and len(name) <= LONGEST_NAME and name not in KEYWORDS


class Feed(NamedTuple):
    """What feeds an input: a register of a part, by the part's number from 0, and the level of the wire where it has one."""

    part: int
    register: str
    level: object


class FreeInput(NamedTuple):
    """An input that no wire feeds."""

    part: int
    name: str
    width: int


class Linked:
    """A system without a fault: its parts, each a name and a design, and what feeds inputs, by the part's number and the input's name."""

    def __init__(self, parts, wires, lattice):
        self.parts = parts
        self.lattice = lattice
        self.codes = [lattice.code(level) for level in lattice.levels]
        self.feeds = {}
        for number, wire in enumerate(wires, 1):
            self.add_wire(number, *wire)
        inputs = [FreeInput(number, one.name, one.width) for number, (_, design) in enumerate(parts) for one in design.of_sort(Input)]
        # parts in order, the inputs of each in the order of declaration
        self.free_inputs = [one for one in inputs if one[:2] not in self.feeds]

    def add_wire(self, number, source, target, level=None):
        fed_by, fed = self.entity(source, Register), self.entity(target, Input)
        faults = (
            ("K5", lambda: fed_by is None),
            ("K6", lambda: fed is None),
            ("K7", lambda: fed in self.feeds),
            ("K8", lambda: self.width(fed_by) != self.width(fed)),
            ("K9", lambda: level is not None and level not in self.lattice.number),
        )
        for code, stands in faults:
            if stands():
                raise SystemFault(code, number)
        self.feeds[fed] = Feed(*fed_by, None if level is None else self.lattice.number[level])

    def entity(self, text, sort):
        """The number of the part and the name that `PART.NAME` says, if the part has an entity of this sort with this name."""
        part, _, name = text.partition(".")
        for number, (own, design) in enumerate(self.parts):
            if own == part and name in [one.name for one in design.of_sort(sort)]:
                return number, name
        return None

    def width(self, entity):
        part, name = entity
        return self.parts[part][1].entities[name].width

    def ports(self):
        """The ports of the module behind `clk`: all inputs, then all registers, then all check sites, parts in order."""
        tag, named = tag_width(self.lattice), []
        for part, name, width in self.free_inputs:
            named.append(("input", width, tag, f"{self.parts[part][0]}_{name}"))
        for part, design in self.parts:
            named += [("output reg", one.width, tag, f"{part}_{one.name}") for one in design.of_sort(Register)]
        ports = [port for kind, width, tag, name in named for port in (Port(kind, width, f"v_{name}"), Port(kind, tag, f"t_{name}"))]
        for part, design in self.parts:
            for site in range(1, len(design.sites) + 1):
                ports += [Port("output wire", 1, f"c_{part}_{site}"), Port("output wire", tag, f"l_{part}_{site}")]
        return ports


class DesignFiles:
    """Design files that are there, by name, over a lattice. A text is made to a design once."""

    def __init__(self, texts, lattice, known=None):
        self.texts = texts
        self.lattice = lattice
        self.known = {} if known is None else known

    def design(self, name):
        """The design of a file, or its first fault."""
        if name not in self.texts:
            raise FileNotFoundError(name)
        text = self.texts[name]
        if text not in self.known:
            self.known[text] = design_or_fault(text, self.lattice)
        if isinstance(self.known[text], Fault):
            raise self.known[text]
        return self.known[text]

    def with_texts(self, texts):
        """Other texts over the same lattice."""
        return DesignFiles(texts, self.lattice, self.known)


def design_or_fault(text, lattice):
    try:
        return design_of(text, lattice)
    except Fault as fault:
        return fault


def linked_of(data, files):
    """The system of a file's bytes, or its first fault, of the system or of a part."""
    system = system_of(data)
    parts = []
    for name, file in system.parts:
        try:
            parts.append((name, files.design(file)))
        except Fault as fault:
            raise PartFault(name, fault) from fault
    return Linked(parts, system.wires, files.lattice)


# The run.


class CompositeRun:
    """A run of a system: a run of each part, and the next cycle of all of them."""

    def __init__(self, linked):
        self.linked = linked
        self.runs = [Run(design) for _, design in linked.parts]
        self.fed = {}

    def cycle(self, inputs):
        """One cycle on what the free inputs get, in their order. Answers the refusals of each part. All wires are read before any part steps."""
        self.fed = {target: self.carried(feed) for target, feed in self.linked.feeds.items()}
        taken = {one[:2]: tagged for one, tagged in zip(self.linked.free_inputs, inputs)} | self.fed
        return [run.cycle(inputs_of(taken, number)) for number, run in enumerate(self.runs)]

    def carried(self, feed):
        """The number and the level of the register; with a level on the wire that level, and 0 for what isn't at or below it."""
        value, level = self.runs[feed.part].registers[feed.register]
        if feed.level is None:
            return Tagged(value, level)
        return Tagged(value if self.linked.lattice.is_at_or_below(level, feed.level) else 0, feed.level)


def inputs_of(taken, part):
    return {name: tagged for (number, name), tagged in taken.items() if number == part}


def stream_of(stimulus, linked):
    """The cycles of a stimulus without a fault: for each what the free inputs get, in their order."""
    return [fields_of(pieces, linked.lattice) for line in stimulus.splitlines() for pieces in cycles_of(line)]


def rows_and_trace(linked, stimulus):
    """The rows of a system's run as `sim` writes them of its module, and its refusals, a line for each as `trace` writes it, with the part in front."""
    run = CompositeRun(linked)
    rows, trace = [], []
    for cycle, inputs in enumerate(stream_of(stimulus, linked), 1):
        refusals = run.cycle(inputs)
        rows.append(row(cycle, run))
        trace += [refusal_line(cycle, *part, refusal) for part, own in zip(linked.parts, refusals) for refusal in own]
    return "".join(rows), "".join(trace)


def row(cycle, run):
    fields = [
        f" {part}_{name}={value}@{run.linked.lattice.names[level]}"
        for (part, _), own in zip(run.linked.parts, run.runs)
        for name, (value, level) in own.registers.items()
    ]
    return f"cycle {cycle}:{''.join(fields)}\n"


def refusal_line(cycle, part, design, refusal):
    site = design.sites[refusal.site - 1]
    return f"{part} cycle {cycle}: site {refusal.site} {site.kind} {site.name} at {design.lattice.names[refusal.level]}\n"


# What a module that stands for a run has.


def numbers_between_cycles(run):
    """The number of each register, and the numbers of each memory, that the module has behind a cycle, by name."""
    numbers = {}
    for (part, _), own in zip(run.linked.parts, run.runs):
        numbers |= numbers_of_part(own, part, run.linked.codes)
    return numbers


def numbers_of_part(run, part, codes):
    numbers = {}
    for name, (value, level) in run.registers.items():
        numbers |= {f"v_{part}_{name}": value, f"t_{part}_{name}": codes[level]}
    for one in run.design.of_sort(Memory):
        contents = run.memories[one.name]
        numbers[f"v_{part}_{one.name}"] = contents.values
        numbers[f"t_{part}_{one.name}"] = codes[contents.whole] if one.is_dynamic else [codes[level] for level in contents.levels]
    for one in run.design.of_sort(State):
        numbers[f"t_{part}_{one.name}"] = codes[run.tags[one.name]]
    for name, child in run.current.items():
        numbers[f"s_{part}_{0 if name is None else name}"] = child
    return numbers


def numbers_in_cycle(run, refusals):
    """The numbers of the wires of fed inputs and of check sites in the cycle that was done last; `l_` only where `c_` is 1."""
    codes, numbers = run.linked.codes, {}
    for (part, name), (value, level) in run.fed.items():
        name = f"{run.linked.parts[part][0]}_{name}"
        numbers |= {f"v_{name}": value, f"t_{name}": codes[level]}
    for (part, design), own in zip(run.linked.parts, refusals):
        numbers |= {f"c_{part}_{number}": 0 for number in range(1, len(design.sites) + 1)}
        for refusal in own:
            numbers |= {f"c_{part}_{refusal.site}": 1, f"l_{part}_{refusal.site}": codes[refusal.level]}
    return numbers


def inputs_in_cycle(linked, inputs):
    """The numbers of the module's inputs in a cycle."""
    numbers = {}
    for (part, name, _), (value, level) in zip(linked.free_inputs, inputs):
        name = f"{linked.parts[part][0]}_{name}"
        numbers |= {f"v_{name}": value, f"t_{name}": linked.codes[level]}
    return numbers
