"""What a design makes of its module: the ports and the state, with their widths, by docs/MODULES.md. Nothing here comes from the product."""

import re
from dataclasses import dataclass, field

from model.modules import TOKEN, Port, module_of
from model.tree import Input, Memory, Register, State


class NotTheDesigns(Exception):
    """How a module isn't the design's, in a few words."""


@dataclass(frozen=True)
class Group:
    """The children of a state, or the top-level states: the register that has the current child, and the children's names."""

    register: str
    children: tuple


@dataclass
class Interface:
    """The names of a module by what they stand for. Each is an entity of the design; `groups` has those of the root and of each parent."""

    design: object
    inputs: list = field(default_factory=list)
    registers: list = field(default_factory=list)
    memories: list = field(default_factory=list)
    states: list = field(default_factory=list)
    groups: dict = field(default_factory=dict)
    sites: int = 0

    @property
    def lattice(self):
        return self.design.lattice

    @property
    def tag_width(self):
        return len(self.lattice.meet_irreducibles())

    def ports(self):
        """The ports behind the clock, in order."""
        found = []
        for kind, entities in (("input", self.inputs), ("output reg", self.registers)):
            for one in entities:
                found += [Port(kind, one.width, f"v_{one.name}"), Port(kind, self.tag_width, f"t_{one.name}")]
        for site in range(1, self.sites + 1):
            found += [Port("output wire", 1, f"c_{site}"), Port("output wire", self.tag_width, f"l_{site}")]
        return found

    def plain_registers(self):
        """Each register with its width: those of registers, of dynamic memories' tags, of states and of groups."""
        widths = {}
        for one in self.registers:
            widths |= {f"v_{one.name}": one.width, f"t_{one.name}": self.tag_width}
        widths |= {f"t_{one.name}": self.tag_width for one in self.memories if one.is_dynamic}
        widths |= {f"t_{one.name}": self.tag_width for one in self.states}
        return widths | {group.register: width_for(len(group.children)) for group in self.groups.values()}

    def arrays(self):
        """Each memory of the module with its width and its depth."""
        found = {}
        for one in self.memories:
            found[f"v_{one.name}"] = one.width, 2**one.index_width
            if not one.is_dynamic:
                found[f"t_{one.name}"] = self.tag_width, 2**one.index_width
        return found

    def starts(self):
        """The number that each register and each cell of a memory starts with."""
        code = self.lattice.code
        starts = {group.register: 0 for group in self.groups.values()}
        starts |= {f"t_{one.name}": code(one.level) for one in (*self.registers, *self.memories, *self.states)}
        return starts | {f"v_{one.name}": one.start for one in (*self.registers, *self.memories)}


def interface_of(design):
    groups = {None: Group("s_0", tuple(state.name.text for state in design.tree.states))}
    for state in design.states():
        if state.children:
            groups[state.name.text] = Group(f"s_{state.name.text}", tuple(child.name.text for child in state.children))
    sorts = [design.of_sort(sort) for sort in (Input, Register, Memory, State)]
    return Interface(design, *sorts, groups, len(design.sites))


def width_for(children):
    """The least width of 1 or more that can hold the number of each child."""
    return max(1, (children - 1).bit_length())


def module_read(text, interface):
    """The module of a text. It has to have the interface of the design, and nothing else but helping wires."""
    if not text.isascii() or TOKEN.sub(lambda found: f" {found[1] or ''}", text).split()[-1:] != ["endmodule"]:
        raise NotTheDesigns("it doesn't end with its `endmodule`, or isn't ASCII")
    try:
        module = module_of(text)
    except (AssertionError, AttributeError, IndexError, KeyError, ValueError, TypeError) as error:
        raise NotTheDesigns("it isn't read as a module of the subset") from error
    compare_ports(module.ports, interface.ports())
    registers = {name: module.widths.get(name) for name in module.edges}
    compare("register", registers, interface.plain_registers())
    compare("memory", {name: (module.widths[name], depth) for name, depth in module.depths.items()}, interface.arrays())
    ports = {port.name for port in module.ports}
    for name, _ in module.wires:
        if name not in ports and not re.fullmatch(r"n\d+", name):
            raise NotTheDesigns(f"the design has no wire {name}")
    for name in (*registers, *module.depths):
        if name not in module.starts:
            raise NotTheDesigns(f"{name} has no `initial`")
        if name in module.depths and name not in module.writes:
            raise NotTheDesigns(f"the memory {name} has no `always`")
    return module


def compare_ports(found, wanted):
    compare("port", {port.name: (port.kind, port.width) for port in found}, {port.name: (port.kind, port.width) for port in wanted})
    if [port.name for port in found] != [port.name for port in wanted]:
        raise NotTheDesigns("its ports stand in another order")


def compare(what, found, wanted):
    for name, shape in wanted.items():
        if name not in found:
            raise NotTheDesigns(f"the {what} {name} is missing")
        if found[name] != shape:
            raise NotTheDesigns(f"the {what} {name} is {told(found[name])} where the design has {told(shape)}")
    for name in found:
        if name not in wanted:
            raise NotTheDesigns(f"the design has no {what} {name}")


def told(shape):
    match shape:
        case str() as kind, int() as width:
            return f"{kind} [{width - 1}:0]"
        case int() as width, int() as depth:
            return f"[{width - 1}:0], {depth} cells"
    return f"[{shape - 1}:0]"
