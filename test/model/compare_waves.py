"""`wave`, `unwave` and `sim` of the built program beside the model of dumps. Usage: python3 -m model.compare_waves PROGRAM TOP COUNT SEED"""

import glob
import os
import random
import sys

from .cases import case_of
from .compare import Answer
from .examples import held
from .modules import module_of
from .random_lattices import random_lattice
from .random_modules import random_module, random_stimulus
from .texts import rows_and_trace
from .wave_damages import damaged
from .wave_table import DUMP, LATTICE, MODULE, NONE, damaged as damaged_by_hand
from .waves import WaveFault, dump_of, rows_of, wave_of, wave_of_run
from .writing import BEFORE, LATTICE_FILE, Writing, compared

DESIGN, VERILOG, STIMULUS, OUT, DAMAGED = "design.sapper", "top.v", "stimulus.txt", "out.vcd", "damaged.vcd"
DAMAGES_OF_A_DUMP = 8
# IDs of one digit, of two and of three begin behind 0, 94 and 8,836 variables.
COUNTS_OF_REGISTERS = (1, 94, 95, 188, 8836, 8837)


class Waves(Writing):
    """Calls over dumps."""

    def is_out(self, wanted, what):
        if self.held(OUT) != wanted:
            self.note(f"{what}: OUT isn't what is wanted, which is kept in wanted_out")
            self.put("wanted_out", wanted)

    def module(self, text, stimulus, lattice):
        """The dump of a module's run, and its rows by `sim` and by `unwave`. Answers the dump."""
        wave = wave_of_run(module_of(text), stimulus, lattice)
        dump, rows = dump_of(wave), rows_of(wave, lattice)
        self.put(VERILOG, text)
        self.put(STIMULUS, stimulus)
        self.expect(Answer(0), "wave", LATTICE_FILE, VERILOG, STIMULUS, OUT)
        self.is_out(dump, "wave")
        self.expect(Answer(0, rows), "sim", LATTICE_FILE, VERILOG, STIMULUS)
        self.expect(Answer(0, rows), "unwave", LATTICE_FILE, OUT)
        self.counts["blocks"] += len(wave.blocks)
        self.counts["variables"] += len(wave.variables)
        self.counts["bytes"] += len(dump)
        return dump

    def reading(self, text, lattice):
        """Any text as a dump: its rows, or its first fault."""
        self.put(DAMAGED, text)
        try:
            wanted = Answer(0, rows_of(wave_of(text), lattice))
        except WaveFault as fault:
            wanted = Answer(10, line=f"wave: {fault}\n")
            self.counts[fault.code] += 1
        self.counts["none"] += wanted.status == 0
        self.expect(wanted, "unwave", LATTICE_FILE, DAMAGED)


# Random modules, those of random designs and those drawn as modules.


def random_case(waves, seed):
    case, draw = case_of(seed), random.Random(seed)
    lattice = waves.lattice(case.lattice_text)
    waves.put(DESIGN, case.text)
    waves.expect(Answer(0), "compile", LATTICE_FILE, DESIGN, VERILOG)
    rows, _ = rows_and_trace(case.design, case.stimuli[0])
    dump = waves.module(waves.held(VERILOG), case.stimuli[0], lattice)
    if rows_of(wave_of(dump), lattice) != rows:
        waves.note("the model's rows of the design aren't those of its module")
    damages(waves, draw, dump, lattice)
    text = random_module(draw, lattice)
    stimulus = random_stimulus(draw, module_of(text), lattice)
    dump = waves.module(text, stimulus, lattice)
    odd_stimulus(waves, draw, stimulus)
    damages(waves, draw, dump, lattice)
    other = waves.lattice(random_lattice(draw)[1])
    waves.reading(dump, other)


def odd_stimulus(waves, draw, stimulus):
    """`wave` refuses a stimulus where `sim` does, in the same words, and leaves OUT as it was."""
    at = draw.randrange(len(stimulus) + 1)
    waves.put(STIMULUS, stimulus[:at] + draw.choice("\n \r@*09x") + stimulus[at + draw.randint(0, 1) :])
    waves.put(OUT, BEFORE)
    answer = waves.call("sim", LATTICE_FILE, VERILOG, STIMULUS)
    waves.expect(answer._replace(output=""), "wave", LATTICE_FILE, VERILOG, STIMULUS, OUT)
    waves.counts["refused"] += answer.status == 4
    if answer.status:
        waves.is_out(BEFORE, "a refused wave")
    else:
        waves.expect(answer, "unwave", LATTICE_FILE, OUT)


def damages(waves, draw, dump, lattice):
    for number, text in enumerate(damaged(draw, dump, DAMAGES_OF_A_DUMP), 1):
        known = len(waves.differing)
        waves.reading(text, lattice)
        if len(waves.differing) > known:
            waves.put(f"damaged_{number}.vcd", text)


# The examples, with the stimuli of their wanted rows.


def examples(waves, top):
    for path in sorted(glob.glob(os.path.join(top, "examples", "*", "wanted", "*.*.run"))):
        folder, (name, stimulus, _) = os.path.dirname(os.path.dirname(path)), os.path.basename(path).split(".")
        lattice = waves.lattice(held(folder, "lattice.toml"))
        waves.put(DESIGN, held(folder, f"{name}.sapper"))
        waves.expect(Answer(0), "compile", LATTICE_FILE, DESIGN, VERILOG)
        dump = waves.module(waves.held(VERILOG), held(folder, f"{stimulus}.txt"), lattice)
        if rows_of(wave_of(dump), lattice) != held(path):
            waves.note(f"the model's rows aren't those of {path}")
    for folder, lattice, name, stimulus in (("modules", "first", "swap", "three_cycles"), ("bus", "bus", "untagged", "one")):
        one = waves.lattice(held(top, "examples", lattice, "lattice.toml"))
        waves.module(held(top, "examples", folder, f"{name}.v"), held(top, "examples", folder, f"{stimulus}.txt"), one)


# What was worked out by hand.


def by_hand(waves, _):
    lattice = waves.lattice(LATTICE)
    if waves.module(MODULE, "\n\n", lattice) != DUMP:
        waves.note("the model's dump isn't the one that was worked out by hand")
    for text, fault in damaged_by_hand():
        waves.put(DAMAGED, text)
        answer = Answer(0, rows_of(wave_of(text), lattice)) if fault == NONE else Answer(10, line=f"wave: {fault}\n")
        waves.expect(answer, "unwave", LATTICE_FILE, DAMAGED)


# Sizes.


def chain(count, width=8):
    """A module of so many registers, each of which takes the number of the one before."""
    names = ["v_a", *(f"v_x{number}" for number in range(count))]
    ports = "".join(f", output reg [{width - 1}:0] {name}" for name in names[1:])
    items = "".join(f"initial {name} = {width}'d0;\nalways @(posedge clk) {name} <= {before};\n" for before, name in zip(names, names[1:]))
    return f"module top(input clk, input [{width - 1}:0] v_a{ports});\n{items}endmodule\n"


def sizes(waves, _):
    """IDs of all lengths; the least and the largest width; many cycles without a change."""
    lattice = waves.lattice(LATTICE)
    for count in COUNTS_OF_REGISTERS:
        dump = waves.module(chain(count), "5\n5\n0\n7 *3\n", lattice)
        last = dump.rindex("\n#5\n") + 1
        waves.reading(dump[:last] + "#6\n" + dump[last:].removeprefix("#5\n"), lattice)
    for width in (1, 64):
        waves.module(chain(3, width), f"1\n0\n{2**width - 1} *2\n0 *4\n", lattice)
    waves.module(chain(2), "0 *65535\n0 *65535\n1 *65535\n", lattice)
    waves.module(chain(0), "1 *65535\n", lattice)


# Files.

REFUSED = (
    ("5@low 1", "S5"),
    ("5@low 1 \n", "S4"),
    ("5@low\n", "S4"),
    ("256@low 1\n", "S2"),
    ("5@low 2\n", "S2"),
    ("5@nowhere 1\n", "S3"),
    ("5 1\n", "S1"),
    ("5@low 1@low\n", "S1"),
    ("5@low 1 *0\n", "S6"),
    ("5@low 1 *65536\n", "S6"),
    ("5@low " + "0" * 65531 + "\n", "S1"),
)
GATED = """module top(input clk, input [7:0] v_a, input [0:0] t_a, input [0:0] go, output reg [7:0] v_x, output reg [0:0] t_x);
wire [7:0] n0;
wire [0:0] n1;
assign n0 = go ? v_a : v_x;
assign n1 = go ? t_a : t_x;
initial v_x = 8'd0;
initial t_x = 1'd0;
always @(posedge clk) v_x <= n0;
always @(posedge clk) t_x <= n1;
endmodule
"""


def files(waves, _):
    """What stands in OUT where something is refused; files that are one; files that aren't there."""
    lattice = waves.lattice(LATTICE)
    waves.module(GATED, "5@high 1\n6@low 0 *3\n7@low 1\n", lattice)
    waves.put(OUT, BEFORE)
    for line, code in REFUSED:
        waves.put(STIMULUS, "5@low 1\n" * 3 + line)
        waves.expect(Answer(4, line=f"stimulus 1: {code} line 4\n"), "wave", LATTICE_FILE, VERILOG, STIMULUS, OUT)
    waves.put("refused.v", "module top(input clk);\nassign n = m;\nendmodule\n")
    waves.put("refused.toml", 'levels = ["low"]\nbelow = []\n')
    waves.put("refused.vcd", DUMP.replace("#1", "#2"))
    for words, answer in (
        (("wave", LATTICE_FILE, "refused.v", STIMULUS, OUT), Answer(5, line="module: V4 2:8\n")),
        (("wave", LATTICE_FILE, "none.v", STIMULUS, OUT), Answer(6, line="desk: none.v\n")),
        (("wave", LATTICE_FILE, VERILOG, "none.txt", OUT), Answer(6, line="desk: none.txt\n")),
        (("wave", "refused.toml", "none.v", STIMULUS, OUT), Answer(3, line="lattice: L3 1\n")),
        (("wave", LATTICE_FILE, VERILOG, STIMULUS), Answer(2, line="words\n")),
        (("wave", LATTICE_FILE, VERILOG, STIMULUS, OUT, OUT), Answer(2, line="words\n")),
        (("wave", LATTICE_FILE, VERILOG, STIMULUS, "-out"), Answer(2, line="words\n")),
        (("unwave", LATTICE_FILE, "refused.vcd"), Answer(10, line="wave: Y4 line 14\n")),
        (("unwave", LATTICE_FILE, "none.vcd"), Answer(6, line="desk: none.vcd\n")),
        (("unwave", "refused.toml", "none.vcd"), Answer(3, line="lattice: L3 1\n")),
        (("unwave", LATTICE_FILE), Answer(2, line="words\n")),
    ):
        waves.expect(answer, *words)
    waves.is_out(BEFORE, "a refused wave")
    waves.put(STIMULUS, "5@low 1\n")
    waves.expect(Answer(6, line="desk: none/out.vcd\n"), "wave", LATTICE_FILE, VERILOG, STIMULUS, "none/out.vcd")
    one_file(waves, lattice, STIMULUS)
    waves.put(STIMULUS, "5@low 1\n")
    one_file(waves, lattice, VERILOG)
    no_room(waves, lattice)


def one_file(waves, lattice, name):
    """OUT is one of the files that are read."""
    dump = dump_of(wave_of_run(module_of(waves.held(VERILOG)), waves.held(STIMULUS), lattice))
    waves.expect(Answer(0), "wave", LATTICE_FILE, VERILOG, STIMULUS, name)
    if waves.held(name) != dump:
        waves.note(f"wave with {name} as OUT: it doesn't hold the dump")


def no_room(waves, lattice):
    """A full device, and a file that may not grow beyond some sizes: a prefix of the dump stands there."""
    waves.put(VERILOG, GATED)
    waves.put(STIMULUS, "5@low 1\n6@high 1\n" * 5_000)
    dump = dump_of(wave_of_run(module_of(GATED), waves.held(STIMULUS), lattice))
    if os.path.exists("/dev/full"):
        waves.expect(Answer(6, line="desk: /dev/full\n"), "wave", LATTICE_FILE, VERILOG, STIMULUS, "/dev/full")
    for most in (0, 1, 100, 4096, 100_000, len(dump) - 1, len(dump)):
        waves.put(OUT, BEFORE[:most])
        status, line = waves.limited(most, "wave", LATTICE_FILE, VERILOG, STIMULUS, OUT)
        wanted = (6, f"desk: {OUT}\n") if most < len(dump) else (0, "")
        if (status, line) != wanted:
            waves.note(f"wave with {most} bytes for OUT: status {status}, {line!r}")
        if not dump.startswith(waves.held(OUT)) or status == 0 and waves.held(OUT) != dump:
            waves.note(f"wave with {most} bytes for OUT: it doesn't hold a prefix of the dump, or not all of it")


COUNTS = (
    ("calls", ("compile", "wave", "sim", "unwave")),
    ("dumps", ("blocks", "variables", "bytes")),
    ("damaged stimuli", ("refused",)),
    ("damaged dumps by their first fault", ("Y1", "Y2", "Y3", "Y4", "Y5", "none")),
)


def main(program, top, count, seed):
    cases = [(case.__name__, case, top) for case in (by_hand, examples, sizes, files)]
    cases += [(f"seed_{number}", random_case, number) for number in range(seed, seed + count)]
    return compared(Waves, program, cases, COUNTS)


if __name__ == "__main__":
    sys.exit(main(os.path.realpath(sys.argv[1]), sys.argv[2], int(sys.argv[3]), int(sys.argv[4])))
