"""Tags for any module of the subset: their names, what they are in each cycle, and how many items they may cost."""

import re

from .modules import Clocked, Const, Port, fields_of, numbers_of, tag_width
from .streams import cycles_of
from .waves import Variable, Wave

NAME = re.compile(r"[A-Za-z_]\w*")


# Names.


def tag_name(name):
    """`t_x` for `v_x`, and `t_z` for any other name z, `v_` among them."""
    return f"t_{name[2:]}" if re.match("v_.", name) else f"t_{name}"


def first_clash(module):
    """The first declared name whose tag's name is a name of the module, or the tag's name of an earlier one; None where there is room for all tags."""
    taken = {module.name, *module.widths}
    for name in module.widths:
        if tag_name(name) in taken:
            return name
        taken.add(tag_name(name))
    return None


def tagged_ports(module, width):
    """Each port with its tag's directly behind it."""
    return [one for port in module.ports for one in (port, Port(port.kind, width, tag_name(port.name)))]


# Runs.


class Tainted(Clocked):
    """A module between two cycles, with the tags of its registers and memories, and of the inputs and wires of the cycle before."""

    def __init__(self, module):
        super().__init__(module)
        self.tags = {name: 0 for name in (*module.edges, *module.depths)}

    def tag(self, operand):
        return 0 if isinstance(operand, Const) else self.tags[operand]

    def settle(self, numbers):
        """Takes a number for each input and for each tag of one, by name."""
        inputs = [port.name for port in self.module.inputs()]
        super().settle({name: numbers[name] for name in inputs})
        self.tags.update({name: numbers[tag_name(name)] for name in inputs})
        for name, _ in self.module.wires:
            self.tags[name] = 0
            for read in names_in(self.module.tokens[name]):
                self.tags[name] |= self.tags[read]

    def edge(self):
        after = {name: self.tag(operand) for name, operand in self.module.edges.items()}
        for name, write in self.module.writes.items():
            after[name] = self.written_tag(name, *write)
        super().edge()
        self.tags.update(after)

    def written_tag(self, name, enable, index, value):
        """A memory's tag keeps what it has, and whether there is a write is told by it, even where there is none."""
        tag = self.tags[name] | self.tag(enable)
        return tag | self.tag(index) | self.tag(value) if self.read(enable) else tag


def names_in(tokens):
    """The names that a right side reads, whatever comes of them."""
    return [token for token in tokens if NAME.fullmatch(token)]


def fields_with_tags(module, lattice):
    """The fields of a line of a stimulus for the module with tags."""
    return fields_of(with_ports(module, tagged_ports(module, tag_width(lattice))), lattice)


def with_ports(module, ports):
    return type(module)(name=module.name, ports=ports)


def wave_of_taint(module, stimulus, lattice):
    """What the output registers of the module with tags have at the start and after each cycle of a stimulus."""
    fields, run = fields_with_tags(module, lattice), Tainted(module)
    shown = module.output_registers()
    variables = [Variable(port.name, port.width) for port in tagged_ports(with_ports(module, shown), tag_width(lattice))]
    blocks = [numbers_after(run, shown)]
    for line in stimulus.splitlines():
        for pieces in cycles_of(line):
            run.cycle(numbers_of(fields, pieces, lattice))
            blocks.append(numbers_after(run, shown))
    return Wave(variables, blocks)


def numbers_after(run, registers):
    return [number for port in registers for number in (run.values[port.name], run.tags[port.name])]


# Items.


def items_of(module):
    """The items with `assign` or `always`."""
    return len(module.wires) + len(module.edges) + len(module.writes)


def most_items(module):
    """How many the module with tags may have: four for each, six for a memory's, and one more for each operand of a `{}`."""
    operands = sum(len(tokens[1:-1:2]) for tokens in module.tokens.values() if tokens[0] == "{")
    return 4 * (len(module.wires) + len(module.edges)) + 6 * len(module.writes) + operands
