"""The question about a module as one text of Verilog: two copies of it, and wires that say whether they agree at a level.

The relation is that of docs/LANGUAGE.md, "Agreement at a level". `level` is a register that keeps its number, the code of the observer's level. Of a memory
only some cells are looked at: those that a copy reads in this cycle, and one more, whose number is in a register that keeps it. No more is needed: what the
other cells hold has no part in the cycle, so where the cells looked at agree the others can be made to; and a cell that doesn't agree after the cycle may be
the one more.
"""

import re
from dataclasses import dataclass, field

from model.modules import TOKEN, Const

COPIES = ("_1", "_2")
WORDS = frozenset("module endmodule input output reg wire assign initial always posedge if for integer clk i".split())


@dataclass(frozen=True)
class Place:
    """A register or a cell as the wires that have it: of each copy the number and the tag. `cell` is the cell's number, or the wire that has it."""

    entity: object
    values: tuple
    tags: tuple
    cell: object = None


@dataclass
class Copies:
    """Two copies of a module as items of Verilog. For each memory of the design `asked` has the cells that are asked about after the cycle, and `read` the
    others that have a part in it."""

    items: list
    ports: list
    asked: dict = field(default_factory=dict)
    read: dict = field(default_factory=dict)

    def cells(self, memory):
        return [*self.asked[memory.name], *self.read[memory.name]]


def both(name):
    return tuple(name + copy for copy in COPIES)


def module_text(ports, items):
    return "\n".join([f"module question({', '.join(['input clk', *ports])});", *items, "endmodule", ""])


def conjunction(parts):
    return " &\n  ".join(dict.fromkeys(parts)) or "1'd1"


class Question:
    """The wires `premises`, `refusals`, `states`, `kept` and `first` over two copies of a module."""

    def __init__(self, interface, module, copies):
        self.interface = interface
        self.lattice = interface.lattice
        self.module = module
        self.copies = copies
        self.width = interface.tag_width
        self.items = []

    def text(self):
        registers = [Place(one, both(f"v_{one.name}"), both(f"t_{one.name}")) for one in self.interface.registers]
        read = [place for one in self.interface.memories for place in self.copies.read[one.name]]
        asked = [place for one in self.interface.memories for place in self.copies.asked[one.name]]
        common = [*self.common_agreement(), *(self.agreement(place) for place in registers)]
        sane = [*self.kept_states(), *(part for place in registers for part in self.kept_place(place))]
        self.say("inputs_agree", self.inputs())
        self.say("states", common + [self.agreement(place) for place in asked])
        self.say("cells_agree", [self.agreement(place) for place in read])
        self.say("kept", sane + [part for place in asked for part in self.kept_place(place)])
        self.say("cells_kept", [part for place in read for part in self.kept_place(place)])
        self.say("refusals", self.refusals())
        self.say("first", self.first([*registers, *read, *asked]))
        self.say("premises", ["inputs_agree", "states", "cells_agree", "kept", "cells_kept"])
        ports = [*self.copies.ports, *(f"output {name}" for name in ANSWERS)]
        kept = [f"reg [{self.width - 1}:0] level;", "always @(posedge clk) level <= level;"]
        return module_text(ports, [*kept, *self.copies.items, *self.items])

    def say(self, name, parts):
        self.items.append(f"wire {name};\nassign {name} =\n  {conjunction(parts)};" if name not in ANSWERS else f"assign {name} =\n  {conjunction(parts)};")

    # Levels.

    def constant(self, level):
        return f"{self.width}'d{self.lattice.code(level)}"

    def seen(self, tag):
        """A tag is at or below the level: its code is within that of the level."""
        return f"(({tag} & ~level) == {self.width}'d0)"

    def is_code(self, tag):
        return "(" + " | ".join(f"{tag} == {self.constant(level)}" for level in self.lattice.levels) + ")"

    # Agreement.

    def equal_or_hidden(self, tags, equal):
        """Equal where one of both tags is seen."""
        return f"(({self.seen(tags[0])} | {self.seen(tags[1])}) ? ({equal}) : 1'd1)"

    def alike(self, values, tags):
        return self.equal_or_hidden(tags, f"{values[0]} == {values[1]} & {tags[0]} == {tags[1]}")

    def same_tag_in_sight(self, entity, tags):
        """The tag of an enforced entity whose authority is seen is the same in both."""
        return f"({self.seen(self.constant(entity.authority))} ? {tags[0]} == {tags[1]} : 1'd1)"

    def inputs(self):
        parts = []
        for one in self.interface.inputs:
            tags = both(f"t_{one.name}")
            parts += [self.alike(both(f"v_{one.name}"), tags), *map(self.is_code, tags)]
        return parts

    def agreement(self, place):
        alike = self.alike(place.values, place.tags)
        return alike if place.entity.is_dynamic else f"{alike} & {self.same_tag_in_sight(place.entity, place.tags)}"

    def common_agreement(self):
        """What of states between cycles isn't of registers and cells: tags of states, and the active paths."""
        tags = [self.same_tag_in_sight(one, both(f"t_{one.name}")) for one in self.interface.states if not one.is_dynamic]
        for parent in reversed(self.interface.groups):
            self.path(parent)
        return [*tags, "path_0"]

    def path(self, parent):
        """The wire that says whether the active paths from a parent down look alike, from those of its children."""
        group, name = self.interface.groups[parent], parent or "0"
        for copy in COPIES:
            *others, last = [f"t_{child}{copy}" for child in group.children]
            chosen = "".join(f"{group.register}{copy} == {number} ? {tag} : " for number, tag in enumerate(others))
            self.items.append(f"wire [{self.width - 1}:0] entered_{name}{copy};\nassign entered_{name}{copy} = {chosen}{last};")
        *others, last = [f"path_{child}" if child in self.interface.groups else "1'd1" for child in group.children]
        below = "".join(f"{group.register}_1 == {number} ? {path} : " for number, path in enumerate(others))
        same = f"{group.register}_1 == {group.register}_2 & entered_{name}_1 == entered_{name}_2 & ({below}{last})"
        self.items.append(f"wire path_{name};\nassign path_{name} = {self.equal_or_hidden(both(f'entered_{name}'), same)};")

    def refusals(self):
        parts = []
        for site in range(1, self.interface.sites + 1):
            one, other = (f"(c_{site}{copy} & {self.seen(f'l_{site}{copy}')})" for copy in COPIES)
            parts.append(f"({one} == {other} & ({one} ? l_{site}_1 == l_{site}_2 : 1'd1))")
        return parts

    # What every state keeps.

    def kept_tag(self, entity, tag):
        """A tag is a code; the authority of an enforced entity is at or below it."""
        is_above = [] if entity.is_dynamic else [f"(({self.constant(entity.authority)} & ~{tag}) == {self.width}'d0)"]
        return [self.is_code(tag), *is_above]

    def kept_place(self, place):
        return [part for tag in place.tags for part in self.kept_tag(place.entity, tag)] + self.unchanged_cells(place)

    def kept_states(self):
        parts = [part for one in self.interface.states for tag in both(f"t_{one.name}") for part in self.kept_tag(one, tag)]
        for group in self.interface.groups.values():
            parts += [f"({register} < {len(group.children)})" for register in both(group.register)]
        for name in unchanged_registers(self.module):
            parts += [f"({register} == {self.start(name)})" for register in both(name)]
        return parts

    def unchanged_cells(self, place):
        """Of a memory that nothing writes each cell has the number that it starts with."""
        parts = []
        for name, wires in ((f"v_{place.entity.name}", place.values), (f"t_{place.entity.name}", place.tags)):
            if is_never_written(self.module, name):
                parts += [f"({wire} == {self.start(name)})" for wire in wires]
        return parts

    def start(self, name):
        return f"{self.module.widths[name]}'d{self.module.starts[name]}"

    # The first state.

    def first(self, places):
        """Both copies are as the `initial` items say."""
        parts = [f"({register} == {self.start(name)})" for name in self.interface.plain_registers() for register in both(name)]
        for place in places:
            for name, wires in ((f"v_{place.entity.name}", place.values), (f"t_{place.entity.name}", place.tags)):
                parts += [f"({wire} == {self.start(name)})" for wire in wires if name in self.module.depths]
        return parts


def unchanged_registers(module):
    """The registers that the text gives their start, or themselves, at each edge: what reads them may have that number instead."""
    return [name for name, operand in module.edges.items() if operand in (name, Const(module.widths[name], module.starts[name]))]


def keeping(module):
    """What always has the number that it starts with: these registers, and memories that nothing writes."""
    names = [*unchanged_registers(module), *(name for name in module.depths if is_never_written(module, name))]
    return {name: module.starts[name] for name in names}


ANSWERS = ("premises", "refusals", "states", "kept", "first")


def is_never_written(module, name):
    return name in module.depths and module.writes[name][0] == Const(1, 0)


# Copies of a module's text.


def renamed(text, copy, prefix=""):
    """The items behind the ports of a text, each as its tokens, with a suffix or a prefix at each name."""
    tokens = [found[1] for found in TOKEN.finditer(text) if found[1]]
    item, depth, behind = [], 0, tokens[tokens.index(";") + 1 : -1]
    for token in behind:
        depth += (token == "(") - (token == ")")
        item.append(token if token in WORDS or not re.match(r"[A-Za-z_]", token) else prefix + token + copy)
        if token == ";" and depth == 0:
            yield item
            item = []


def copies_of_text(interface, module, text):
    """Two copies of the items of a text. Each input is a port of its own for each copy."""
    ports = [f"input [{port.width - 1}:0] {name}" for port in module.inputs() for name in both(port.name)]
    items = ["integer i;", *(item for copy in COPIES for item in items_of_copy(module, text, copy))]
    copies = Copies(items, ports)
    for memory in interface.memories:
        add_cells(copies, module, memory)
    return copies


def items_of_copy(module, text, copy):
    """The items of a copy, whose outputs are declared in front."""
    items = [f"{port.kind.removeprefix('output ')} [{port.width - 1}:0] {port.name}{copy};" for port in module.ports if port.kind != "input"]
    still = {name + copy for name in module.depths if is_never_written(module, name)}
    for item in renamed(text, copy):
        if item[0] != "integer" and (item[0] != "initial" or still & set(item)):
            items.append(" ".join(item))
    return items


def add_cells(copies, module, memory):
    """Wires that have the cells of a memory that are looked at: those that a copy reads, and one more."""
    most = memory.index_width - 1
    chosen = f"cell_of_{memory.name}"
    copies.items += [f"reg [{most}:0] {chosen};", f"always @(posedge clk) {chosen} <= {chosen};"]
    addresses = [chosen, *addresses_read(module, memory)]
    places = []
    for number, address in enumerate(addresses):
        index = f"index_{number}_of_{memory.name}"
        copies.items += [f"wire [{most}:0] {index};", f"assign {index} = {address};"]
        places.append(Place(memory, *(cell_wires(copies, module, memory, sort, index, number) for sort in "vt"), index))
    copies.asked[memory.name], copies.read[memory.name] = places[:1], places[1:]


def addresses_read(module, memory):
    """The operands by which the text reads a memory, in both copies."""
    names = (f"v_{memory.name}", f"t_{memory.name}")
    found = {right[2]: None for right in module.tokens.values() if right[0] in names and right[1:2] == ["["]}
    return [f"{address}" if "'" in address else address + copy for address in found for copy in COPIES]


def cell_wires(copies, module, memory, sort, index, number):
    """Of both copies the wire that has the number, or the tag, of a cell. A dynamic memory has one tag for all its cells."""
    name = f"{sort}_{memory.name}"
    if name not in module.depths:
        return both(name)
    wires = both(f"at_{number}_{name}")
    for wire, array in zip(wires, both(name)):
        copies.items += [f"wire [{module.widths[name] - 1}:0] {wire};", f"assign {wire} = {array}[{index}];"]
    return wires
