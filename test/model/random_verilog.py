"""Modules of Verilog drawn at random: expressions of all operators, signed and unsigned, `if` and `case` in clocked blocks and in blocks of wires, memories.

Left out is what one of the tools was seen to take otherwise than the standard has it. Yosys 0.23: a `casez` over a constant with a `?` in an arm, a signed
value that is assigned to a bit or a run of bits whose index isn't constant, a concatenation of one signed part. Icarus Verilog 11: all bits of a signed name
as a part.
"""

from typing import NamedTuple

from .random_streams import random_value

MOST = 64
WIDTHS = (1, 1, 2, 3, 4, 8, 8, 13, 16, 31, 32, 33, 64)
ARITHMETIC = ("+", "-", "*", "&", "|", "^", "~^")
COMPARISONS = ("==", "!=", "===", "!==", "<", "<=", ">", ">=")
SHIFTS = ("<<", ">>", "<<<", ">>>")
REDUCTIONS = ("&", "|", "^", "~&", "~|", "~^", "!")


class Drawn(NamedTuple):
    """An expression, with the width and the sign that it has by itself."""

    text: str
    width: int
    is_signed: bool = False


class Modules:
    """One module as it is drawn. `sources` are names that may be read so far, `memories` names with a width and the bits of an index."""

    def __init__(self, draw):
        self.draw = draw
        self.sources, self.memories, self.inputs = [], [], []
        self.ports, self.items = [], []

    def text(self):
        for number in range(self.draw.randint(1, 5)):
            self.port("input", f"a{number}", self.inputs)
        self.sources += self.inputs
        outputs, registers = [], []
        for number in range(self.draw.randint(0, 3)):
            self.port("output reg", f"q{number}", registers)
        for number in range(self.draw.randint(0, 3)):
            self.inner_register(f"r{number}", registers)
        self.sources += registers
        for number in range(self.draw.choice((0, 0, 1, 2))):
            self.memory(f"m{number}")
        for number in range(self.draw.randint(0, 3)):
            self.block_of_a_wire(f"w{number}")
        for number in range(self.draw.randint(1, 3)):
            self.port("output", f"y{number}", outputs)
        for one in outputs:
            self.items.append(f"assign {one.text} = {self.expression(3).text};")
        for one in registers:
            self.items.append(f"always @(posedge clk) {self.statement(one, '<=', 2)}")
        for name, width, bits in self.memories:
            write = f"{name}[{self.of_width(bits)}] <= {self.expression(2).text};"
            self.items.append(f"always @(posedge clk) if ({self.expression(1).text}) {write}")
        items = "\n".join(f"  {item}" for item in self.items)
        return f"module drawn(input clk, {', '.join(self.ports)});\n{items}\nendmodule\n"

    # What is declared.

    def drawn_name(self, name):
        return Drawn(name, self.draw.choice(WIDTHS), self.draw.random() < 0.3)

    def declaration(self, one):
        return f"{'signed ' * one.is_signed}[{one.width - 1}:0] {one.text}"

    def port(self, kind, name, among):
        one = self.drawn_name(name)
        self.ports.append(f"{kind} {self.declaration(one)}")
        among.append(one)
        if kind == "output reg":
            self.items.append(f"initial {name} = {self.number(one.width)};")

    def inner_register(self, name, among):
        one = self.drawn_name(name)
        self.items += [f"reg {self.declaration(one)};", f"initial {name} = {self.number(one.width)};"]
        among.append(one)

    def memory(self, name):
        width, bits = self.draw.choice(WIDTHS), self.draw.choice((1, 2, 4))
        self.items += [f"reg [{width - 1}:0] {name} [0:{2**bits - 1}];", f"integer of_{name};"]
        self.items.append(f"initial for (of_{name} = 0; of_{name} < {2**bits}; of_{name} = of_{name} + 1) {name}[of_{name}] = {self.number(width)};")
        self.memories.append((name, width, bits))

    def block_of_a_wire(self, name):
        """It reads an input, without which a block may never be looked at."""
        one = self.drawn_name(name)
        self.items.append(f"reg {self.declaration(one)};")
        first = f"{name} = {self.draw.choice(self.inputs).text}; {name} = {self.expression(2).text};"
        self.items.append(f"always @* begin {first} {self.statement(one, '=', 2)} end")
        self.sources.append(one)

    # Statements, each with a name as its target.

    def statement(self, target, sign, depth):
        kind = self.draw.choice(("assign", "assign", "part", "if", "case", "casez", "bit", "run")) if depth else "assign"
        inner = lambda: self.statement(target, sign, depth - 1)
        if kind == "if":
            otherwise = f" else {inner()}" if self.draw.random() < 0.6 else ""
            return f"if ({self.expression(2).text}) begin {inner()} end{otherwise}"
        if kind in ("case", "casez"):
            return self.case(kind, inner)
        if kind == "part" and target.width > 1:
            low, high = sorted(self.draw.sample(range(target.width), 2))
            return f"{target.text}[{high}:{low}] {sign} {self.expression(2).text};"
        bits = target.width.bit_length() - 1
        if kind == "bit" and target.width == 1 << bits and bits:
            return f"{target.text}[{self.of_width(bits)}] {sign} {self.unsigned(self.expression(2))};"
        if kind == "run" and target.width == 1 << bits and bits > 2:
            return f"{target.text}[4 * {self.of_width(bits - 2)} +: 4] {sign} {self.unsigned(self.expression(2))};"
        return f"{target.text} {sign} {self.expression(3).text};"

    def case(self, kind, inner):
        subject = self.draw.choice(self.sources) if kind == "casez" else self.expression(1)
        arms = []
        for number in self.draw.sample(range(min(2**subject.width, 16)), min(2**subject.width, self.draw.randint(1, 4))):
            bits = f"{number:0{subject.width}b}"
            if kind == "casez":
                bits = "".join("?" if self.draw.random() < 0.3 else bit for bit in bits)
            arms.append(f"{subject.width}'b{bits}: begin {inner()} end")
        if self.draw.random() < 0.6:
            arms.append(f"default: begin {inner()} end")
        return f"{kind} ({self.unsigned(subject)}) {' '.join(arms)} endcase"

    # Expressions.

    def number(self, width):
        return f"{width}'d{random_value(self.draw, width)}"

    def unsigned(self, one):
        return f"$unsigned({one.text})" if one.is_signed else one.text

    def of_width(self, width):
        """An expression that has no more bits than these."""
        names = [one for one in self.sources if one.width >= width]
        if not names or self.draw.random() < 0.1:
            return self.number(width)
        one = self.draw.choice(names)
        low = self.draw.randint(0, one.width - width)
        return self.bits_of(one, low + width - 1, low)

    def bits_of(self, one, high, low):
        return self.unsigned(one) if high - low + 1 == one.width else f"{one.text}[{high}:{low}]"

    def leaf(self):
        if self.draw.random() < 0.2:
            width, is_signed = self.draw.choice(WIDTHS), self.draw.random() < 0.3
            return Drawn(f"{width}'{'s' * is_signed}h{random_value(self.draw, width):x}", width, is_signed)
        return self.draw.choice(self.sources)

    def expression(self, depth):
        if depth == 0:
            return self.leaf()
        forms = [self.leaf, self.unary, self.arithmetic, self.arithmetic, self.comparison, self.reduction, self.logic, self.shift, self.choice, self.sign]
        forms += [self.concatenation, self.repetition, self.part, self.bit, self.run, self.cell]
        form = self.draw.choice(forms)
        return form() if form == self.leaf else form(depth - 1) or self.expression(depth - 1)

    def unary(self, depth):
        one = self.expression(depth)
        return one._replace(text=f"({self.draw.choice('~-+')}{one.text})")

    def arithmetic(self, depth):
        one, other = self.expression(depth), self.expression(depth)
        return Drawn(f"({one.text} {self.draw.choice(ARITHMETIC)} {other.text})", max(one.width, other.width), one.is_signed and other.is_signed)

    def comparison(self, depth):
        return Drawn(f"({self.expression(depth).text} {self.draw.choice(COMPARISONS)} {self.expression(depth).text})", 1)

    def reduction(self, depth):
        return Drawn(f"({self.draw.choice(REDUCTIONS)}{self.expression(depth).text})", 1)

    def logic(self, depth):
        return Drawn(f"({self.expression(depth).text} {self.draw.choice(('&&', '||'))} {self.expression(depth).text})", 1)

    def shift(self, depth):
        one = self.expression(depth)
        count = self.of_width(self.draw.choice((1, 2, 4, 7))) if self.draw.random() < 0.8 else self.unsigned(self.expression(depth))
        return one._replace(text=f"({one.text} {self.draw.choice(SHIFTS)} {count})")

    def choice(self, depth):
        one, other = self.expression(depth), self.expression(depth)
        return Drawn(f"({self.expression(depth).text} ? {one.text} : {other.text})", max(one.width, other.width), one.is_signed and other.is_signed)

    def sign(self, depth):
        one, is_signed = self.expression(depth), self.draw.random() < 0.5
        return Drawn(f"{'$signed' if is_signed else '$unsigned'}({one.text})", one.width, is_signed)

    def concatenation(self, depth):
        parts = [self.expression(depth) for _ in range(self.draw.randint(1, 3))]
        width = sum(part.width for part in parts)
        return Drawn(f"{{{', '.join(map(self.unsigned, parts))}}}", width) if width <= MOST else None

    def repetition(self, depth):
        one, count = self.expression(depth), self.draw.randint(1, 4)
        return Drawn(f"{{{count}{{{self.unsigned(one)}}}}}", one.width * count) if one.width * count <= MOST else None

    def part(self, _):
        one = self.draw.choice(self.sources)
        if one.width == 1:
            return None
        low, high = sorted(self.draw.sample(range(one.width), 2))
        return Drawn(self.bits_of(one, high, low), high - low + 1)

    def bit(self, _):
        one = self.draw.choice(self.sources)
        bits = one.width.bit_length() - 1
        return Drawn(f"{one.text}[{self.of_width(bits)}]", 1) if one.width == 1 << bits and bits else None

    def run(self, _):
        one = self.draw.choice(self.sources)
        bits = one.width.bit_length() - 1
        return Drawn(f"{one.text}[4 * {self.of_width(bits - 2)} +: 4]", 4) if one.width == 1 << bits and bits > 2 else None

    def cell(self, _):
        if not self.memories:
            return None
        name, width, bits = self.draw.choice(self.memories)
        return Drawn(f"{name}[{self.of_width(bits)}]", width)


def random_verilog(draw):
    return Modules(draw).text()
