"""Modules of the subset in docs/MODULES.md: their text, which is taken to have no fault, and what they do in a cycle."""

import operator
import re
from dataclasses import dataclass, field
from typing import NamedTuple

TOKEN = re.compile(r"\s+|//[^\n]*|(\d+'d\d+|\w+|==|!=|<=|<<|>>|[^\w\s])")
ARITHMETIC = {"+": operator.add, "-": operator.sub, "*": operator.mul, "&": operator.and_, "|": operator.or_, "^": operator.xor}
COMPARISONS = {"==": operator.eq, "!=": operator.ne, "<": operator.lt, "<=": operator.le}


class Port(NamedTuple):
    kind: str
    width: int
    name: str


class Const(NamedTuple):
    width: int
    number: int


@dataclass
class Module:
    """What a module declares, by name, in the order of the text. An operand is a name or a Const; a right side is a function of a run, and kept as tokens."""

    name: str = ""
    ports: list = field(default_factory=list)
    widths: dict = field(default_factory=dict)
    depths: dict = field(default_factory=dict)
    starts: dict = field(default_factory=dict)
    wires: list = field(default_factory=list)
    tokens: dict = field(default_factory=dict)
    edges: dict = field(default_factory=dict)
    writes: dict = field(default_factory=dict)

    def inputs(self):
        return [port for port in self.ports if port.kind == "input"]

    def output_registers(self):
        return [port for port in self.ports if port.kind == "output reg"]

    def width_of(self, operand):
        return operand.width if isinstance(operand, Const) else self.widths[operand]


class Reader:
    """The tokens of a text, taken one after another."""

    def __init__(self, text):
        self.tokens = [found[1] for found in TOKEN.finditer(text) if found[1]]
        self.at = 0
        self.module = Module()

    def next(self):
        self.at += 1
        return self.tokens[self.at - 1]

    def sees(self, token):
        return self.tokens[self.at] == token

    def skip(self, tokens):
        for token in tokens.split(" "):
            assert self.next() == token

    def operand(self):
        return operand_of(self.next())

    def range(self):
        """The width of what is declared."""
        self.skip("[")
        high = int(self.next())
        self.skip(": 0 ]")
        return high + 1

    def whole(self):
        self.skip("module")
        self.module.name = self.next()
        self.skip("( input clk")
        while self.sees(","):
            self.skip(",")
            self.port()
        self.skip(") ;")
        while not self.sees("endmodule"):
            getattr(self, f"{self.next()}_item")()
        return self.module

    def port(self):
        kind = self.next()
        kind += f" {self.next()}" if kind == "output" else ""
        width, name = self.range(), self.next()
        self.module.ports.append(Port(kind, width, name))
        self.module.widths[name] = width

    # Items, each behind its first word.

    def integer_item(self):
        self.skip("i ;")

    def wire_item(self):
        width = self.range()
        self.module.widths[self.next()] = width
        self.skip(";")

    def reg_item(self):
        width, name = self.range(), self.next()
        self.module.widths[name] = width
        if self.sees("["):
            self.skip("[ 0 :")
            self.module.depths[name] = int(self.next()) + 1
            self.skip("]")
        self.skip(";")

    def initial_item(self):
        if self.sees("for"):
            self.skip("for ( i = 0 ; i <")
            self.next()
            self.skip("; i = i + 1 )")
        name = self.next()
        if self.sees("["):
            self.skip("[ i ]")
        self.skip("=")
        self.module.starts[name] = self.operand().number
        self.skip(";")

    def always_item(self):
        self.skip("@ ( posedge clk )")
        if not self.sees("if"):
            name = self.next()
            self.skip("<=")
            self.module.edges[name] = self.operand()
        else:
            self.skip("if (")
            enable = self.operand()
            self.skip(")")
            name = self.next()
            self.skip("[")
            index = self.operand()
            self.skip("] <=")
            self.module.writes[name] = enable, index, self.operand()
        self.skip(";")

    def assign_item(self):
        name = self.next()
        self.skip("=")
        right = []
        while not self.sees(";"):
            right.append(self.next())
        self.skip(";")
        self.module.wires.append((name, right_side(right, self.module)))
        self.module.tokens[name] = right


def operand_of(token):
    width, is_const, number = token.partition("'d")
    return Const(int(width), int(number)) if is_const else token


def right_side(tokens, module):
    """The number of a right side as a function of a run, from its tokens."""
    if tokens[0] == "{":
        return concatenation([operand_of(token) for token in tokens[1:-1:2]], module)
    if len(tokens) == 1:
        one = operand_of(tokens[0])
        return lambda run: run.read(one)
    if len(tokens) == 2:
        return unary(tokens[0], operand_of(tokens[1]), module)
    if tokens[1] == "?":
        condition, one, other = map(operand_of, tokens[::2])
        return lambda run: run.read(one if run.read(condition) else other)
    if tokens[1] == "[" and tokens[3] == ":":
        name, high, low = tokens[0], int(tokens[2]), int(tokens[4])
        return lambda run: run.read(name) >> low & (1 << high - low + 1) - 1
    if tokens[1] == "[":
        name, index = tokens[0], operand_of(tokens[2])
        return lambda run: run.memories[name][run.read(index)]
    return binary(operand_of(tokens[0]), tokens[1], operand_of(tokens[2]), module)


def concatenation(parts, module):
    def number(run):
        whole = 0
        for part in parts:
            whole = whole << module.width_of(part) | run.read(part)
        return whole

    return number


def unary(sign, one, module):
    most = (1 << module.width_of(one)) - 1
    return {
        "~": lambda run: most - run.read(one),
        "-": lambda run: -run.read(one) & most,
        "&": lambda run: int(run.read(one) == most),
        "|": lambda run: int(run.read(one) != 0),
        "^": lambda run: run.read(one).bit_count() % 2,
    }[sign]


def binary(one, sign, other, module):
    width = module.width_of(one)
    most = (1 << width) - 1
    if sign in COMPARISONS:
        return lambda run: int(COMPARISONS[sign](run.read(one), run.read(other)))
    if sign in ARITHMETIC:
        return lambda run: ARITHMETIC[sign](run.read(one), run.read(other)) & most
    if sign == "<<":
        return lambda run: run.read(one) << min(run.read(other), width) & most
    return lambda run: run.read(one) >> min(run.read(other), width)


def module_of(text):
    return Reader(text).whole()


class Clocked:
    """A module between two cycles."""

    def __init__(self, module):
        self.module = module
        self.values = {name: module.starts[name] for name in module.edges}
        self.memories = {name: [module.starts[name]] * depth for name, depth in module.depths.items()}

    def read(self, operand):
        return operand.number if isinstance(operand, Const) else self.values[operand]

    def cycle(self, inputs):
        """One cycle on a number for each input, by name: the wires in order, then all registers and memories at once."""
        self.settle(inputs)
        self.edge()

    def settle(self, inputs):
        """What comes before the edge."""
        self.values.update(inputs)
        for name, right in self.module.wires:
            self.values[name] = right(self)

    def edge(self):
        taken = {name: self.read(operand) for name, operand in self.module.edges.items()}
        written = [(name, *map(self.read, write)) for name, write in self.module.writes.items()]
        self.values.update(taken)
        for name, enable, index, value in written:
            if enable:
                self.memories[name][index] = value


# Stimuli.


class Field(NamedTuple):
    """A field of a line: the input that takes its value and, where it has one, the input that takes the code of its level."""

    name: str
    width: int
    tag: str | None


def fields_of(module, lattice):
    inputs = module.inputs()
    tags = {port.name for port in inputs if port.width == tag_width(lattice)}
    fields = [Field(port.name, port.width, tag_of(port.name, tags)) for port in inputs]
    own = {one.tag for one in fields}
    return [one for one in fields if one.name not in own]


def tag_of(name, tags):
    """The tag of `v_x` is `t_x`, where that is among the tags."""
    tag = f"t_{name[2:]}"
    return tag if re.match("v_.", name) and tag in tags else None


def tag_width(lattice):
    return len(lattice.meet_irreducibles())


def numbers_of(fields, pieces, lattice):
    """What the inputs get in a cycle, from the pieces of a line."""
    numbers = {}
    for one, piece in zip(fields, pieces):
        value, _, level = piece.partition("@")
        numbers[one.name] = int(value)
        if one.tag:
            numbers[one.tag] = lattice.code(lattice.number[level])
    return numbers
