"""Modules of the subset drawn at random, with memories, widths up to 64 and ports of all kinds, and stimuli of modules."""

from .modules import fields_of, tag_width
from .random_streams import random_value

COMPARISONS = ("==", "!=", "<", "<=")
ARITHMETIC = ("+", "-", "*", "&", "|", "^")
SHIFTS = ("<<", ">>")
WIDTHS = (1, 1, 1, 2, 3, 8, 8, 16, 31, 33, 63, 64)


class Modules:
    """One module as it is drawn. `sources` are the names that may be read so far, each with its width."""

    def __init__(self, draw, lattice):
        self.draw = draw
        self.lattice = lattice
        self.sources, self.memories = [], []
        self.ports, self.declared, self.items, self.starts = [], [], [], []

    def text(self):
        self.draw_ports()
        registers = [(name, width) for kind, width, name in self.ports if kind == "output reg"]
        registers += [self.inner_register(number) for number in range(self.draw.choice((0, 1, 3)))]
        for number in range(self.draw.choice((0, 0, 1, 2))):
            self.draw_memory(number)
        self.sources += registers
        for number in range(self.draw.choice((1, 4, 12, 30))):
            self.draw_wire(f"n{number}", self.draw.choice(registers)[1] if registers and self.draw.random() < 0.6 else self.draw.choice(WIDTHS))
        for kind, width, name in self.ports:
            if kind == "output wire":
                self.draw_wire(name, width, is_declared=True)
        for name, width in registers:
            self.starts.append(f"initial {name} = {self.const(width)};")
            self.starts.append(f"always @(posedge clk) {name} <= {self.operand(width)};")
        for memory in self.memories:
            self.clocked_memory(*memory)
        self.draw.shuffle(self.starts)
        return self.laid_out()

    def laid_out(self):
        ports = "".join(self.draw.choice((", ", ",\n  ")) + f"{kind} [{width - 1}:0] {name}" for kind, width, name in self.ports)
        items = (["integer i;"] if self.memories else []) + self.declared + self.items + self.starts
        name = self.draw.choice(("top", "top", "m", "v_x0", "other_name"))
        return f"module {name}(input clk{ports});\n" + "".join(item + self.draw.choice(("\n", "\n", " // as drawn\n", " ")) for item in items) + "endmodule\n"

    # What is declared.

    def draw_ports(self):
        """Values with tags, or without one, or with one of another width; and single ports."""
        width = tag_width(self.lattice)
        for kind, letter, most in (("input", "a", 4), ("output reg", "x", 6)):
            for number in range(self.draw.randint(0, most)):
                self.ports.append((kind, self.draw.choice(WIDTHS), f"v_{letter}{number}"))
                tag = self.draw.choice((width,) * 6 + (width + 1, None))
                self.ports += [(kind, tag, f"t_{letter}{number}")] if tag else []
        single = (("input", "go"), ("input", "t_"), ("output reg", "shown"), ("output reg", "v_"), ("output reg", "t_alone"), ("output wire", "v_w"), ("output wire", "c_1"))
        self.ports += [(kind, self.draw.choice(WIDTHS), name) for kind, name in single if self.draw.random() < 0.3]
        if self.draw.random() < 0.3:
            self.draw.shuffle(self.ports)
        self.sources += [(name, width) for kind, width, name in self.ports if kind == "input"]

    def inner_register(self, number):
        name, width = f"s_{number}", self.draw.choice(WIDTHS)
        self.declared.append(f"reg [{width - 1}:0] {name};")
        return name, width

    def draw_memory(self, number):
        name, width, bits = f"m{number}", self.draw.choice(WIDTHS), self.draw.choice((1, 2, 4, 12))
        self.declared.append(f"reg [{width - 1}:0] {name} [0:{2**bits - 1}];")
        self.memories.append((name, width, bits))

    def draw_wire(self, name, width, is_declared=False):
        if not is_declared:
            self.items.append(f"wire [{width - 1}:0] {name};")
        self.items.append(f"assign {name} = {self.right(width)};")
        self.sources.append((name, width))

    def clocked_memory(self, name, width, bits):
        self.starts.append(f"initial for (i = 0; i < {2**bits}; i = i + 1) {name}[i] = {self.const(width)};")
        self.starts.append(f"always @(posedge clk) if ({self.operand(1)}) {name}[{self.operand(bits)}] <= {self.operand(width)};")

    # What is read.

    def const(self, width):
        return f"{width}'d{random_value(self.draw, width)}"

    def operand(self, width):
        """A name of this width, mostly one that came last, or a number."""
        names = [name for name, own in self.sources if own == width]
        if not names or self.draw.random() < 0.1:
            return self.const(width)
        return self.draw.choice(names[-4:] if self.draw.random() < 0.7 else names)

    def any_name(self, least):
        """A name of at least this width with its width, if there is one."""
        found = [one for one in self.sources if one[1] >= least]
        return self.draw.choice(found) if found else None

    def right(self, width):
        """A right side of this width."""
        forms = [self.copy, self.arithmetic, self.arithmetic, self.complement, self.shift, self.choice, self.choice, self.concatenation, self.slice, self.cell]
        forms += [self.comparison, self.reduction] if width == 1 else []
        return self.draw.choice(forms)(width) or self.copy(width)

    def copy(self, width):
        return self.operand(width)

    def arithmetic(self, width):
        return f"{self.operand(width)} {self.draw.choice(ARITHMETIC)} {self.operand(width)}"

    def complement(self, width):
        return f"{self.draw.choice('~-')}{self.operand(width)}"

    def shift(self, width):
        return f"{self.operand(width)} {self.draw.choice(SHIFTS)} {self.operand(self.draw.choice((3, 8, 64, width)))}"

    def choice(self, width):
        return f"{self.operand(1)} ? {self.operand(width)} : {self.operand(width)}"

    def concatenation(self, width):
        if width == 1:
            return None
        ends = sorted(self.draw.sample(range(1, width), min(width - 1, self.draw.randint(1, 3))))
        parts = [self.operand(high - low) for low, high in zip([0, *ends], [*ends, width])]
        return "{" + ", ".join(parts) + "}"

    def slice(self, width):
        found = self.any_name(width)
        if not found:
            return None
        low = self.draw.randint(0, found[1] - width)
        return f"{found[0]}[{low + width - 1}:{low}]"

    def cell(self, width):
        found = [(name, bits) for name, own, bits in self.memories if own == width]
        if not found:
            return None
        name, bits = self.draw.choice(found)
        return f"{name}[{self.operand(bits)}]"

    def comparison(self, _):
        own = self.draw.choice(self.sources)[1] if self.sources else 1
        return f"{self.operand(own)} {self.draw.choice(COMPARISONS)} {self.operand(own)}"

    def reduction(self, _):
        found = self.any_name(1)
        return found and f"{self.draw.choice('&|^')}{found[0]}"


def random_module(draw, lattice):
    return Modules(draw, lattice).text()


def random_stimulus(draw, module, lattice):
    """A stimulus of a module, in which lines may stand for several cycles, and cycles stay the same for a while."""
    fields, lines = fields_of(module, lattice), []
    for _ in range(draw.choice((0, 1, 5, 24, 40))):
        pieces = [field_text(draw, one, lattice) for one in fields]
        count = draw.choice((0, 0, 0, 0, 1, 2, 9))
        pieces += [f"*{str(count).rjust(draw.choice((1, 1, 5)), '0')}"] if count else []
        lines += [" ".join(pieces) + "\n"] * draw.choice((1, 1, 1, 3))
    return "".join(lines)


def field_text(draw, one, lattice):
    value = str(random_value(draw, one.width)).rjust(draw.choice((1,) * 8 + (2, 20)), "0")
    return f"{value}@{draw.choice(lattice.names)}" if one.tag else value
