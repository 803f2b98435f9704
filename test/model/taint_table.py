"""The model of tags on what was worked out by hand: rows of modules with tags, and the first name that clashes; and on itself: modules drawn at random on two
streams that agree at a level.

Usage: python3 -m model.taint_table
"""

import random
import sys

from .lattice import lattice_of
from .modules import module_of
from .random_lattices import random_lattice
from .random_modules import random_module
from .random_streams import other_stream, random_stream
from .random_taints import LONG, without_tags
from .taints import Tainted, first_clash, tag_name, wave_of_taint
from .waves import rows_of

TWO = 'levels = ["low", "high"]\nbelow = [["low", "high"]]\n'
FOUR = 'levels = ["low", "a", "b", "high"]\nbelow = [["low", "a"], ["low", "b"], ["a", "high"], ["b", "high"]]\n'
MODULE = """module top(input clk, input [7:0] v_a, output reg [7:0] v_x, output reg [7:0] v_y);
wire [7:0] n1;
assign n1 = v_x + v_a;
initial v_x = 8'd0;
initial v_y = 8'd3;
always @(posedge clk) v_x <= n1;
always @(posedge clk) v_y <= v_x;
endmodule
"""
# All tags of what is read count, of both arms and beside a 0 too; a register's is the one before the edge.
CHOICES = """module choices(input clk, input [0:0] v_c, input [7:0] v_p, input [7:0] v_q,
  output reg [7:0] v_x, output reg [7:0] v_y, output reg [7:0] v_z);
wire [7:0] n0; wire [7:0] n1; wire [15:0] n2; wire [7:0] n3;
assign n0 = v_c ? v_p : v_q;
assign n1 = v_p & 8'd0;
assign n2 = {v_q, v_x};
assign n3 = n2[15:8];
initial v_x = 8'd1; initial v_y = 8'd1; initial v_z = 8'd1;
always @(posedge clk) v_x <= n0;
always @(posedge clk) v_y <= n1;
always @(posedge clk) v_z <= n3;
endmodule
"""
# Of a write that isn't made only the condition's tag counts, of one that is made all three; the memory's tag never falls.
MEMORY = """module memory(input clk, input [0:0] v_on, input [0:0] v_at, input [7:0] v_put, input [0:0] v_get, output reg [7:0] v_got);
reg [7:0] m [0:1];
wire [7:0] n0;
integer i;
assign n0 = m[v_get];
initial v_got = 8'd0;
initial for (i = 0; i < 2; i = i + 1) m[i] = 8'd7;
always @(posedge clk) v_got <= n0;
always @(posedge clk) if (v_on) m[v_at] <= v_put;
endmodule
"""
MEMORY_BY_A_CONSTANT = """module on(input clk, input [7:0] v_put, output reg [7:0] v_got);
reg [7:0] m [0:1]; wire [7:0] n0; integer i;
assign n0 = m[1'd0];
initial v_got = 8'd0; always @(posedge clk) v_got <= n0;
initial for (i = 0; i < 2; i = i + 1) m[i] = 8'd7; always @(posedge clk) if (1'd1) m[1'd1] <= v_put;
endmodule
"""
# Lattice, module, stimulus and rows.
WORKED = (
    (TWO, MODULE, "5@high\n1@low\n", "cycle 1: x=5@high y=0@low\ncycle 2: x=6@high y=5@high\n"),
    (
        FOUR,
        CHOICES,
        "1@low 5@a 6@b\n0@a 5@low 6@low\n1@low 5@low 6@low\n",
        "cycle 1: x=5@high y=0@a z=6@b\ncycle 2: x=6@a y=0@low z=6@high\ncycle 3: x=5@low y=0@low z=6@a\n",
    ),
    (
        FOUR,
        MEMORY,
        "0@low 1@a 9@b 0@low\n1@low 1@low 9@low 1@low\n0@low 0@low 0@low 1@b\n0@a 0@b 0@b 1@low\n0@low 0@low 0@low 0@low\n0@low 0@low 0@low 0@b\n",
        "cycle 1: got=7@low\ncycle 2: got=7@low\ncycle 3: got=9@b\ncycle 4: got=9@low\ncycle 5: got=7@a\ncycle 6: got=7@high\n",
    ),
    (
        FOUR,
        MEMORY,
        "1@low 1@a 9@low 0@low\n1@low 0@low 8@b 0@low\n0@low 0@low 0@low 0@low\n0@low 0@low 0@low 1@low\n",
        "cycle 1: got=7@low\ncycle 2: got=7@a\ncycle 3: got=8@high\ncycle 4: got=9@high\n",
    ),
    (TWO, MEMORY_BY_A_CONSTANT, "1@low\n2@high\n3@low\n", "cycle 1: got=7@low\ncycle 2: got=7@low\ncycle 3: got=7@high\n"),
)
SWAP = """module top(input clk, output reg [7:0] v_x, output reg [0:0] t_x, output reg [7:0] v_y, output reg [0:0] t_y);
initial v_x = 8'd1; initial t_x = 1'd0; initial v_y = 8'd2; initial t_y = 1'd0;
always @(posedge clk) v_x <= v_y; always @(posedge clk) t_x <= t_y; always @(posedge clk) v_y <= v_x; always @(posedge clk) t_y <= t_x;
endmodule
"""


def inputs(*names, module="top"):
    """A module with some inputs and nothing else."""
    return f"module {module}(input clk{''.join(f', input [0:0] {name}' for name in names)}); endmodule\n"


def wires(*names):
    """A module whose names are declared as wires in this order, but have their numbers in the other."""
    declared = "".join(f"wire [0:0] {name};\n" for name in names)
    return f"module top(input clk);\n{declared}{''.join(f'assign {name} = 1{chr(39)}d1;{chr(10)}' for name in reversed(names))}endmodule\n"


def memory(name, *others):
    """A module with a memory behind some registers."""
    registers = "".join(f"reg [0:0] {other}; initial {other} = 1'd0; always @(posedge clk) {other} <= {other};\n" for other in others)
    text = f"reg [0:0] {name} [0:1]; integer i; initial for (i = 0; i < 2; i = i + 1) {name}[i] = 1'd0; always @(posedge clk) if (1'd0) {name}[1'd0] <= 1'd0;\n"
    return f"module top(input clk);\n{registers}{text}endmodule\n"


X = "x" * LONG
# A module, and the first name whose tag's name is taken, or None.
CLASHES = (
    (SWAP, "v_x"),
    (inputs(), None),
    (inputs("a"), None),
    (inputs("a", "b", "c"), None),
    # a tag's name is a declared name, first, between, last; before it and behind it
    (inputs("a", "t_a", "b"), "a"),
    (inputs("v_a", "t_a", "b"), "v_a"),
    (inputs("b", "a", "t_a", "c"), "a"),
    (inputs("b", "t_a", "c", "v_a"), "v_a"),
    (inputs("t_a", "a"), "a"),
    (inputs("t_a", "b", "v_a", "c"), "v_a"),
    (inputs("t_a"), None),
    (inputs("t_a", "b"), None),
    (inputs("t_t_a", "t_a"), "t_a"),
    (inputs("t_t_a", "t_a", "a"), "t_a"),
    (inputs("t_t_a", "a"), None),
    # a tag's name is that of an earlier tag
    (inputs("a", "v_a"), "v_a"),
    (inputs("v_a", "a"), "a"),
    (inputs("b", "a", "c", "v_a", "d"), "v_a"),
    (inputs("a", "b", "v_b", "v_a"), "v_b"),
    (inputs("v_a", "v_v_a"), None),
    (inputs("v_v_a", "a", "v_a"), "v_a"),
    (inputs("v_t_a", "t_a"), "t_a"),
    # both kinds in one module: the first name is told
    (inputs("a", "v_a", "b", "t_b"), "v_a"),
    (inputs("b", "a", "t_b", "v_a"), "b"),
    # `v_` alone is another name
    (inputs("v_"), None),
    (inputs("v_", "t_"), None),
    (inputs("v_", "t_v_"), "v_"),
    (inputs("v_", "v_v_"), "v_v_"),
    (inputs("v", "v_v"), "v_v"),
    (inputs("_", "v__"), "v__"),
    # what only looks like it
    (inputs("V_a", "a", "T_a"), None),
    (inputs("v_A", "a"), None),
    (inputs("va", "v_a", "vv_a"), None),
    (inputs("v_a", "ta", "t_a_"), None),
    (inputs("v_clk", "v_i"), None),
    (inputs("t_clk", "t_i"), None),
    # the module's own name
    (inputs("a", module="a"), None),
    (inputs("a", module="t_a"), "a"),
    (inputs("b", "v_a", "c", module="t_a"), "v_a"),
    (inputs("b", "v_a", module="t_a"), "v_a"),
    (inputs("v_a", "b", module="v_a"), None),
    (inputs("a", "t_b", module="t_b"), None),
    (inputs("a", "t_b", module="t_t_b"), "t_b"),
    # items behind ports, in the order of their declarations
    (wires("a", "b", "v_a"), "v_a"),
    (wires("t_a", "v_b", "b", "v_a"), "b"),
    (memory("m"), None),
    (memory("m", "t_m"), "m"),
    (memory("v_m", "m"), "v_m"),
    (memory("t_x", "a", "x"), "x"),
    # long names
    (inputs(X), None),
    (inputs("v_" + X, X + "x", "t_" + X + "x"), X + "x"),
    (inputs("a", X, "b", "v_" + X), "v_" + X),
    (inputs("v_" + X, "t_" + X), "v_" + X),
    (inputs(X, "t_" + X[1:]), None),
    (inputs(X, module="t_" + X), X),
    (inputs(*(f"a{number}" for number in range(2_000)), "v_a1999"), "v_a1999"),
    (inputs(*(f"a{number}" for number in range(2_000)), module="t_a1000"), "a1000"),
    (inputs(*(f"t_a{number}" for number in range(2_000)), "v_a0"), "v_a0"),
)
MODULES = 60


# Two streams that agree at a level.


class Pair:
    """Two runs of a module with tags, and what isn't as it is to be."""

    def __init__(self, module, lattice, level):
        self.runs = Tainted(module), Tainted(module)
        self.lattice, self.level = lattice, level
        self.codes = {lattice.code(one): one for one in lattice.levels}

    def cycle(self, *streams):
        """What differs in a cycle, before its edge and after it."""
        inputs = [port.name for port in self.runs[0].module.inputs()]
        for run, fields in zip(self.runs, streams):
            numbers = {name: one.value for name, one in zip(inputs, fields)}
            run.settle(numbers | {tag_name(name): self.lattice.code(one.level) for name, one in zip(inputs, fields)})
        yield from self.apart()
        for run in self.runs:
            run.edge()
        yield from self.apart()

    def apart(self):
        contents = [run.values | run.memories for run in self.runs]
        for name in self.runs[0].tags:
            levels = [self.codes.get(run.tags[name]) for run in self.runs]
            if None in levels:
                yield f"the tag of {name} is no code"
            elif any(self.lattice.is_at_or_below(one, self.level) for one in levels):
                if levels[0] != levels[1] or contents[0][name] != contents[1][name]:
                    yield f"{name} differs at {self.lattice.names[self.level]}"


def apart_in_random_runs(seed):
    """What two runs of a random module don't agree in, though their streams do."""
    draw = random.Random(seed)
    lattice = lattice_of(random_lattice(draw)[1])
    module, level = module_of(without_tags(random_module(draw, lattice))), draw.choice(lattice.levels)
    one = random_stream(draw, module.inputs(), lattice)
    other = other_stream(draw, one, module.inputs(), lattice, level)
    agree, pair = alike_up_to(one, other, level, lattice), Pair(module, lattice, level)
    return [what for cycle in range(agree) for what in pair.cycle(one[cycle], other[cycle])]


def alike_up_to(one, other, level, lattice):
    """For how many cycles two streams agree."""
    for cycle, (fields, others) in enumerate(zip(one, other)):
        for field, beside in zip(fields, others):
            if field != beside and any(lattice.is_at_or_below(it.level, level) for it in (field, beside)):
                return cycle
    return min(len(one), len(other))


def wrong():
    """What the model says otherwise than it was worked out."""
    for lattice_text, text, stimulus, rows in WORKED:
        lattice, module = lattice_of(lattice_text), module_of(text)
        said = rows_of(wave_of_taint(module, stimulus, lattice), lattice)
        if said != rows:
            yield f"the rows of {module.name}: {said!r} in place of {rows!r}"
    for text, wanted in CLASHES:
        said = first_clash(module_of(text))
        if said != wanted:
            yield f"{text[:100]!r} clashes at {said} in place of {wanted}"
    for seed in range(MODULES):
        yield from (f"module {seed}: {what}" for what in apart_in_random_runs(seed)[:1])


def main():
    found = list(wrong())
    for what in found:
        print(what)
    print(f"tags by the model: {len(WORKED)} runs, {len(CLASHES)} modules with or without a clash, {MODULES} drawn at random; {len(found) or 'none'} wrong")
    return bool(found)


if __name__ == "__main__":
    sys.exit(main())
