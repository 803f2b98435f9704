"""`taint` of the built program beside the model of tags, and `sim` and `wave` of what it writes.

Usage: python3 -m model.compare_taints PROGRAM TOP COUNT SEED
"""

import glob
import os
import random
import sys

from .cases import case_of
from .compare import Answer
from .examples import held
from .modules import Clocked, module_of, numbers_of, tag_width
from .random_lattices import random_lattice
from .random_modules import random_module, random_stimulus
from .random_taints import with_odd_names, without_tags
from .streams import cycles_of
from .taint_table import CLASHES, LONG, MODULE, TWO, WORKED, inputs
from .taints import Tainted, fields_with_tags, first_clash, items_of, most_items, tag_name, tagged_ports, wave_of_taint, with_ports
from .waves import dump_of, rows_of
from .writing import BEFORE, LATTICE_FILE, Writing, compared

DESIGN, VERILOG, STIMULUS_FILE, OUT, DUMP, AGAIN = "design.sapper", "given.v", "stimulus.txt", "out.v", "out.vcd", "again.v"
ODD_NAMES_OF_A_CASE = 4


class Taints(Writing):
    """Calls that add tags."""

    def refused(self, answer, verilog=VERILOG):
        """A refusal leaves OUT as it was."""
        self.put(OUT, BEFORE)
        self.expect(answer, "taint", LATTICE_FILE, verilog, OUT)
        if self.held(OUT) != BEFORE:
            self.note("a refused taint: OUT isn't as before")

    def module(self, text, lattice, draw, stimulus=None):
        """A module with its tags: the first name that clashes, or what was added, and the run of it, on a stimulus that is drawn where none is given. Answers
        whether there was room for tags."""
        module = module_of(text)
        self.put(VERILOG, text)
        clash = first_clash(module)
        if clash:
            self.counts["X1"] += 1
            self.counts[place_of(clash, module)] += 1
            self.refused(Answer(5, line=f"module: X1 {clash}\n"))
            return False
        self.counts["tainted"] += 1
        self.expect(Answer(0), "taint", LATTICE_FILE, VERILOG, OUT)
        out = module_of(self.held(OUT))
        self.form(module, out, tag_width(lattice))
        if stimulus is None:
            stimulus = random_stimulus(draw, with_ports(module, tagged_ports(module, tag_width(lattice))), lattice)
        self.run(module, out, stimulus, lattice)
        return True

    def form(self, module, out, width):
        """Names, ports and their order, kinds, widths, starts, and how many items there are."""
        self.same("the module's name", out.name, module.name)
        self.same("the ports", out.ports, tagged_ports(module, width))
        names = [one for name in module.widths for one in (name, tag_name(name))]
        self.same("the names", [*out.widths][: len(names)], names)
        helping = [*out.widths][len(names) :]
        self.same("the kinds", kinds_of(out), kinds_of(module) | tag_kinds_of(module) | {name: "wire" for name in helping})
        self.same("the widths", {name: out.widths[name] for name in names}, module.widths | {tag_name(name): width for name in module.widths})
        self.same("the depths", out.depths, module.depths)
        tags = {tag_name(name): 0 for name in (*module.edges, *module.depths)}
        self.same("the starts", out.starts, module.starts | tags)
        if items_of(out) > most_items(module):
            self.note(f"{items_of(out)} items, at most {most_items(module)} for {items_of(module)} given ones")
        self.counts["given items"] += items_of(module)
        self.counts["items"] += items_of(out)
        self.counts["helping wires"] += len(helping)

    def same(self, what, got, wanted):
        if got != wanted:
            self.note(f"{what}: {first_apart(got, wanted)}")

    def run(self, module, out, stimulus, lattice):
        """The rows and the dump by the program, and each number of a name and of a tag in each cycle by the model's reading of what was written."""
        self.put(STIMULUS_FILE, stimulus)
        wave = wave_of_taint(module, stimulus, lattice)
        self.expect(Answer(0, rows_of(wave, lattice)), "sim", LATTICE_FILE, OUT, STIMULUS_FILE)
        self.expect(Answer(0), "wave", LATTICE_FILE, OUT, STIMULUS_FILE, DUMP)
        if self.held(DUMP) != dump_of(wave):
            self.note("the dump of the written module isn't the model's, which is kept in wanted_dump")
            self.put("wanted_dump", dump_of(wave))
        fields, given, tagged, cycle = fields_with_tags(module, lattice), Tainted(module), Clocked(out), 0
        for line in stimulus.splitlines():
            for pieces in cycles_of(line):
                numbers, cycle = numbers_of(fields, pieces, lattice), cycle + 1
                for when in ("settle", "edge"):
                    for run in (given, tagged):
                        run.settle(numbers) if when == "settle" else run.edge()
                    self.numbers(given, tagged, f"cycle {cycle}, {'before' if when == 'settle' else 'after'} the edge")
        self.counts["cycles"] += cycle

    def numbers(self, given, tagged, when):
        wanted = given.values | {tag_name(name): tag for name, tag in given.tags.items()}
        self.same(f"numbers in {when}", {name: tagged.values.get(name) for name in wanted}, wanted)
        self.same(f"memories in {when}", tagged.memories, given.memories)
        self.counts["numbers"] += len(wanted)


def kinds_of(module):
    """For each declared name whether it is an input, a register, a memory or a wire."""
    kinds = {name: "wire" for name, _ in module.wires} | {name: "register" for name in module.edges}
    return kinds | {name: "memory" for name in module.depths} | {port.name: "input" for port in module.inputs()}


def tag_kinds_of(module):
    """A memory has one tag, a register."""
    return {tag_name(name): kind if kind != "memory" else "register" for name, kind in kinds_of(module).items()}


def first_apart(got, wanted):
    if isinstance(wanted, dict):
        got, wanted = sorted(got.items()), sorted(wanted.items())
    if isinstance(wanted, list):
        for one, other in zip([*got, None], [*wanted, None]):
            if one != other:
                return f"{str(one)[:100]} in place of {str(other)[:100]}"
    return f"{str(got)[:100]} in place of {str(wanted)[:100]}"


def place_of(name, module):
    names = [*module.widths]
    return "first name" if name == names[0] else "last name" if name == names[-1] else "name between"


# Random modules: those of random designs, and those drawn as modules; as they are, without tags, and with odd names.


def random_case(taints, seed):
    case, draw = case_of(seed), random.Random(seed)
    lattice = taints.lattice(case.lattice_text)
    taints.put(DESIGN, case.text)
    taints.expect(Answer(0), "compile", LATTICE_FILE, DESIGN, VERILOG)
    for text in (taints.held(VERILOG), random_module(draw, lattice)):
        taints.module(text, lattice, draw)
        text = without_tags(text)
        if taints.module(text, lattice, draw):
            again(taints)
        for _ in range(ODD_NAMES_OF_A_CASE):
            taints.module(with_odd_names(draw, text), lattice, draw)
    taints.module(text, taints.lattice(random_lattice(draw)[1]), draw)


def again(taints):
    """What was written gets no tags again, but where it declares nothing; and written once more it is the same."""
    text = taints.held(OUT)
    taints.expect(Answer(0), "taint", LATTICE_FILE, VERILOG, AGAIN)
    if taints.held(AGAIN) != text:
        taints.note("taint writes another module the second time")
    names = [*module_of(text).widths]
    taints.put(AGAIN, text)
    if names:
        taints.refused(Answer(5, line=f"module: X1 {names[0]}\n"), AGAIN)


# The examples.


def examples(taints, top):
    draw = random.Random(1)
    for path in sorted(glob.glob(os.path.join(top, "examples", "*", "*.sapper"))):
        lattice = taints.lattice(held(os.path.dirname(path), "lattice.toml"))
        taints.put(DESIGN, held(path))
        if taints.call("compile", LATTICE_FILE, DESIGN, VERILOG).status == 0:
            text = taints.held(VERILOG)
            taints.module(text, lattice, draw)
            taints.module(without_tags(text), lattice, draw)


# What was worked out by hand.


def by_hand(taints, _):
    draw = random.Random(1)
    for lattice_text, text, stimulus, rows in WORKED:
        taints.module(text, taints.lattice(lattice_text), draw, stimulus)
        taints.expect(Answer(0, rows), "sim", LATTICE_FILE, OUT, STIMULUS_FILE)
    lattice = taints.lattice(TWO)
    for text, name in CLASHES:
        taints.put(VERILOG, text)
        if name:
            taints.refused(Answer(5, line=f"module: X1 {name}\n"))
        else:
            taints.module(text, lattice, draw)


# Sizes.


def sizes(taints, _):
    """A `{}` of the most parts, one of constants alone, a long chain of wires, large memories, and names of a thousand bytes."""
    lattice, draw = taints.lattice(TWO), random.Random(3)
    for text in (MANY_PARTS, CONSTANTS, chain(20_000), memories(64), module_of_long_names()):
        taints.module(text, lattice, draw)


MANY_PARTS = f"""module parts(input clk, {", ".join(f"input [0:0] v_a{number}" for number in range(64))}, output reg [63:0] v_x);
wire [63:0] n0; assign n0 = {{{", ".join(f"v_a{number}" for number in range(64))}}};
wire [1:0] n1; assign n1 = {{v_a0, v_a0}};
initial v_x = 64'd0; always @(posedge clk) v_x <= n0;
endmodule
"""
CONSTANTS = """module constants(input clk, output reg [7:0] v_x, output wire [7:0] w);
wire [7:0] n0; assign n0 = {4'd1, 4'd2}; wire [7:0] n1; assign n1 = n0 + 8'd1; wire [0:0] n2; assign n2 = 8'd3 == 8'd3; assign w = 8'd9;
wire [7:0] n3; assign n3 = 1'd1 ? 8'd1 : 8'd2; wire [7:0] n4; assign n4 = ~8'd1;
initial v_x = 8'd0; always @(posedge clk) v_x <= 8'd5;
endmodule
"""


def chain(count):
    """Wires each of which reads the two before."""
    wires = "".join(f"wire [7:0] n{number}; assign n{number} = n{number - 1} + {f'n{number - 2}' if number > 1 else 'v_a'};\n" for number in range(1, count))
    end = f"initial v_x = 8'd0; always @(posedge clk) v_x <= n{count - 1};\nendmodule\n"
    return f"module top(input clk, input [7:0] v_a, output reg [7:0] v_x);\nwire [7:0] n0; assign n0 = v_a;\n{wires}{end}"


def memories(count):
    """Memories of the most cells, whose conditions, indexes and values are constants, inputs or all one name."""
    texts = [f"reg [0:0] m{number} [0:1]; initial for (i = 0; i < 2; i = i + 1) m{number}[i] = 1'd1;\n" for number in range(count)]
    texts += [f"always @(posedge clk) if ({on}) m{number}[{at}] <= {put};\n" for number, (on, at, put) in zip(range(count), WRITES * count)]
    largest = "reg [63:0] large [0:4095]; initial for (i = 0; i < 4096; i = i + 1) large[i] = 64'd9;\nalways @(posedge clk) if (v_a) large[v_at] <= v_put;\n"
    read = "wire [63:0] n0; assign n0 = large[v_at]; initial v_x = 64'd0; always @(posedge clk) v_x <= n0;\n"
    ports = "input [0:0] v_a, input [0:0] v_b, input [11:0] v_at, input [63:0] v_put, output reg [63:0] v_x"
    return f"module top(input clk, {ports});\ninteger i;\n{''.join(texts)}{largest}{read}endmodule\n"


WRITES = [(on, at, put) for on in ("v_a", "v_b", "1'd0", "1'd1") for at in ("v_a", "v_b", "1'd1") for put in ("v_a", "v_b", "1'd0")]


def module_of_long_names():
    names = [f"{letter * LONG}{number}" for number, letter in enumerate("abcdefgh")]
    wires = "".join(f"wire [7:0] {name}; assign {name} = {before} + v_{'x' * LONG};\n" for before, name in zip(["8'd1", *names], names))
    register = "r" * LONG
    end = f"initial v_{register} = 8'd0; always @(posedge clk) v_{register} <= {names[-1]};\nendmodule\n"
    return f"module {'t' * LONG}(input clk, input [7:0] v_{'x' * LONG}, output reg [7:0] v_{register});\n{wires}{end}"


# Files.

CLASH = inputs("v_a", "b", "t_b")
FAULTY = "module top(input clk, input [0:0] v_a, input [0:0] t_a);\nassign n = m;\nendmodule\n"


def files(taints, _):
    """What is told first; and what stands in OUT where something is refused; files that are one; files that aren't there."""
    lattice = taints.lattice(TWO)
    taints.module(MODULE, lattice, random.Random(1))
    taints.put("clash.v", CLASH)
    taints.put("faulty.v", FAULTY)
    taints.put("odd.v", MODULE.replace("8'd3", "8'd3 ?"))
    taints.put("refused.toml", 'levels = ["low"]\nbelow = []\n')
    taints.put(OUT, BEFORE)
    for words, answer in (
        ((LATTICE_FILE, "clash.v", OUT), Answer(5, line="module: X1 b\n")),
        ((LATTICE_FILE, "faulty.v", OUT), Answer(5, line="module: V4 2:8\n")),
        ((LATTICE_FILE, "odd.v", OUT), Answer(5, line="module: V2 5:20\n")),
        ((LATTICE_FILE, "none.v", OUT), Answer(6, line="desk: none.v\n")),
        (("refused.toml", "none.v", OUT), Answer(3, line="lattice: L3 1\n")),
        (("refused.toml", "clash.v", OUT), Answer(3, line="lattice: L3 1\n")),
        (("none.toml", "clash.v", OUT), Answer(6, line="desk: none.toml\n")),
        ((LATTICE_FILE, VERILOG), Answer(2, line="words\n")),
        ((LATTICE_FILE, VERILOG, OUT, OUT), Answer(2, line="words\n")),
        ((LATTICE_FILE, VERILOG, "-out"), Answer(2, line="words\n")),
        ((LATTICE_FILE, "-given", OUT), Answer(2, line="words\n")),
        ((LATTICE_FILE, VERILOG, "none/out.v"), Answer(6, line="desk: none/out.v\n")),
    ):
        taints.expect(answer, "taint", *words)
    if taints.held(OUT) != BEFORE:
        taints.note("a refused taint: OUT isn't as before")
    one_file(taints)
    no_room(taints)


def one_file(taints):
    """OUT is one of the files that are read."""
    taints.expect(Answer(0), "taint", LATTICE_FILE, VERILOG, OUT)
    text, lattice_text = taints.held(OUT), taints.held(LATTICE_FILE)
    for name in (VERILOG, LATTICE_FILE):
        taints.put(VERILOG, MODULE)
        taints.expect(Answer(0), "taint", LATTICE_FILE, VERILOG, name)
        if taints.held(name) != text:
            taints.note(f"taint with {name} as OUT: it doesn't hold the module")
    taints.put(LATTICE_FILE, lattice_text)


def no_room(taints):
    """A full device, and a file that may not grow beyond some sizes: a prefix of the module stands there."""
    taints.put(VERILOG, chain(1_000))
    taints.expect(Answer(0), "taint", LATTICE_FILE, VERILOG, OUT)
    text = taints.held(OUT)
    if os.path.exists("/dev/full"):
        taints.expect(Answer(6, line="desk: /dev/full\n"), "taint", LATTICE_FILE, VERILOG, "/dev/full")
    for most in (0, 1, 100, 4096, len(text) - 1, len(text)):
        taints.put(OUT, BEFORE[:most])
        status, line = taints.limited(most, "taint", LATTICE_FILE, VERILOG, OUT)
        wanted = (6, f"desk: {OUT}\n") if most < len(text) else (0, "")
        if (status, line) != wanted:
            taints.note(f"taint with {most} bytes for OUT: status {status}, {line!r}")
        if not text.startswith(taints.held(OUT)) or status == 0 and taints.held(OUT) != text:
            taints.note(f"taint with {most} bytes for OUT: it doesn't hold a prefix of the module, or not all of it")


COUNTS = (
    ("calls", ("compile", "taint", "sim", "wave")),
    ("modules", ("tainted", "X1", "first name", "name between", "last name")),
    ("written modules", ("given items", "items", "helping wires", "cycles", "numbers")),
)


def main(program, top, count, seed):
    cases = [(case.__name__, case, top) for case in (by_hand, examples, sizes, files)]
    cases += [(f"seed_{number}", random_case, number) for number in range(seed, seed + count)]
    return compared(Taints, program, cases, COUNTS)


if __name__ == "__main__":
    sys.exit(main(os.path.realpath(sys.argv[1]), sys.argv[2], int(sys.argv[3]), int(sys.argv[4])))
