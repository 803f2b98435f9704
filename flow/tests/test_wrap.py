"""Wrappers: the same as the module in them, reset and held by their ports, silent in other tools, and two in one system."""
import random
import re
from argparse import Namespace

from common.interface import Interface
from common.modules import Module
from common.program import Stop
from common.proof import prove
from common.streams import cycles_of
from common.wrapper import Wrapper
from model.cases import case_of
from model.tree import Memory

from .support import CHAIN, Folder, example, needs

# Designs without memories, with a stimulus; after a reset their rows are those from the start.
RESETTABLE = [
    ("language", "states", "states"), ("language", "retag", "retag"), ("language", "modes", "modes"), ("language", "decoder", "decoder"),
    ("language", "flag", "flag"), ("bus", "requests", "other"), ("cipher", "speck", "published"), ("owners", "box", "turns"),
]
WITH_MEMORIES = [("language", "memory"), ("verilog", "fifo"), ("processor", "kernel")]
SYSTEM = """
module system(input clk, input rst, input [7:0] v_a, input [0:0] t_a, output [7:0] one, output [7:0] other, output any);
  wire [0:0] tag; wire [7:0] between;
  first a(.clk(clk), .rst(rst), .en(1'b1), .v_a(v_a), .t_a(t_a), .v_y(between), .t_y(tag), .refused_any(any));
  second b(.clk(clk), .rst(rst), .v_a(between), .t_a(tag), .v_x(other), .t_x());
  assign one = between;
endmodule
"""


class Wrap(Folder):
    def wrapped(self, folder, name, *words, top="w"):
        """Compiles and wraps a design. Answers what is told on standard error."""
        lattice, design = example(f"{folder}/lattice.toml"), example(f"{folder}/{name}.sapper")
        self.program("compile", lattice, design, f"{name}.v")
        status, lines, errors = self.script("wrap", lattice, design, f"{name}.v", top, *words)
        self.assertEqual((status, lines), (0, []))
        return errors

    @needs("yosys")
    def test_is_the_module(self):
        choices = [[], ["--reset"], ["--enable"], ["--reset", "--enable", "--clear", "--seen", "low"], ["--refusals", "any"]]
        for at, (folder, name) in enumerate([("language", "states"), ("language", "retag"), ("bus", "slots"), ("language", "memory"), ("verilog", "fifo")]):
            for words in (choices[at], ["--reset", "--enable"]):
                with self.subTest(name=name, words=words):
                    self.wrapped(folder, name, *words)
                    lattice, design = example(f"{folder}/lattice.toml"), example(f"{folder}/{name}.sapper")
                    status, lines, _ = self.script("wrap", lattice, design, f"{name}.v", "w", *words, "--prove")
                    self.assertEqual((status, lines), (0, [f"proved by yosys: with rst 0 and en 1 w is the module of {name}.v"]))

    @needs("yosys")
    def test_proof_can_fail(self):
        """The wrapper of a module isn't taken for that of another one with the same ports."""
        for at, step in enumerate(("a", "a + 1")):
            self.put(f"{at}.sapper", f"input a : 8;\nreg x : 8 dynamic;\nstate S enforced low {{\n  x := {step};\n  goto S;\n}}\n")
            self.program("compile", "lattice.toml", f"{at}.sapper", f"{at}.v")
        asked = Namespace(lattice=self.path("lattice.toml"), design=self.path("0.sapper"), module=self.path("0.v"), name="w")
        asked.__dict__.update(keep=None, tie=[], reset=True, clear=False, enable=True, refusals="all", seen=None)
        wrapper = Wrapper(asked)
        self.put("w.v", wrapper.text())
        prove(wrapper, self.path("w.v"))
        wrapper.given = Module(self.path("1.v"))
        with self.assertRaisesRegex(Stop, "unproven"):
            prove(wrapper, self.path("w.v"))

    @needs("verilator", "yosys", "iverilog")
    def test_tools_say_nothing(self):
        for folder, name in WITH_MEMORIES + [("language", "states"), ("machine", "machine"), ("owners", "box")]:
            for words in ([], ["--reset", "--enable"], ["--reset", "--clear"]):
                with self.subTest(name=name, words=words):
                    self.wrapped(folder, name, *words)
                    self.tools_say_nothing()

    @needs("verilator", "yosys", "iverilog", "vvp")
    def test_fixed_cells(self):
        """Of a write to a cell of which the number stands in the module Yosys would make registers, and warn of it."""
        self.put("d.sapper", "input a : 8;\nmem m : 8[4] dynamic;\nmem k : 4[2] enforced low;\nreg x : 8 dynamic;\nreg y : 4 dynamic;\nstate S enforced low {\n"
                 "  x := m[2];\n  y := k[1];\n  m[2] := a;\n  k[1] := a[3:0];\n  goto S;\n}\n")
        self.put("one.txt", "5@low\n9@high\n7@low\n1@low\n")
        self.program("compile", "lattice.toml", "d.sapper", "d.v")
        self.assertIn("v_m[2'd2] <= ", self.held("d.v"))
        for words in ([], ["--enable"], ["--reset", "--clear", "--enable"]):
            with self.subTest(words=words):
                self.done("wrap", "lattice.toml", "d.sapper", "d.v", "w", *words)
                self.tools_say_nothing()
        self.compared(self.path("lattice.toml"), self.path("d.sapper"), self.path("one.txt"), random.Random(1), 4)

    @needs("verilator", "yosys", "iverilog")
    def test_constant_tags(self):
        """Tags of cells that nothing writes become a number with --reset, and tags of inputs by --tie; both are compared all the same."""
        self.put("d.sapper", "input a : 1;\ninput b : 8;\nmem m : 8[2] enforced low;\nreg x : 8 dynamic;\nstate S enforced low {\n"
                 "  x := m[a];\n  if (a < 0) {\n    setTag(m[a], tag(b));\n  }\n  goto S;\n}\n")
        self.program("compile", "lattice.toml", "d.sapper", "d.v")
        for words in (["--reset"], ["--tie", "b=low"], ["--reset", "--tie", "a=high", "b=high"]):
            with self.subTest(words=words):
                self.done("wrap", "lattice.toml", "d.sapper", "d.v", "w", *words)
                self.tools_say_nothing()

    def tools_say_nothing(self):
        self.silent("verilator", "--lint-only", "-Wall", "--top-module", "w", "w.v")
        self.silent("yosys", "-q", "-p", "read_verilog w.v; hierarchy -check -top w; proc; opt_clean; check -assert")
        self.silent("iverilog", "-g2005", "-Wall", "-t", "null", "w.v")

    @needs("verilator")
    def test_hidden_ports_are_silent(self):
        for words in (["--keep", "y"], ["--refusals", "any"], ["--reset", "--refusals", "none", "--keep", "y", "--tie", "a=low"]):
            with self.subTest(words=words):
                self.wrapped("language", "memory", *words)
                for define in ("", "-DSYNTHESIS"):
                    self.silent("verilator", "--lint-only", "-Wall", *filter(None, [define]), "--top-module", "w", "w.v")

    @needs("verilator")
    def test_silent_about_itself_alone(self):
        """What stands behind NAME.v on Verilator's line is warned of as without it: with -Wall, and not without."""
        self.wrapped("first", "guarded", "--keep", "y")
        self.put("behind.v", "module behind(input clk, input a); wire idle; w dut(.clk(clk), .v_a({8{a}}), .t_a(a), .v_y(), .t_y(), "
                 ".refused_write_y(), .level_write_y(), .refused_goto_S(), .level_goto_S(), .refused_any()); endmodule\n")
        words = ("--top-module", "behind", "w.v", "behind.v")
        self.silent("verilator", "--lint-only", *words)
        told = self.call("verilator", "--lint-only", "-Wall", *words)
        self.assertEqual(set(re.findall(r"%Warning-(\w+): ([\w.]+)", told.stderr)), {("UNUSEDSIGNAL", "behind.v"), ("PINCONNECTEMPTY", "behind.v")}, told.stderr)

    @needs("iverilog", "vvp")
    def test_rows_after_reset(self):
        """Anything goes on, then a reset of a cycle or more, and then the stimulus with cycles between in which en is 0: the rows and refusals of run and trace."""
        for folder, name, stimulus in RESETTABLE:
            with self.subTest(name=name):
                self.assertEqual(self.wrapped(folder, name, "--reset", "--enable"), [])
                self.same(folder, name, stimulus, random.Random(name))

    @needs("iverilog", "vvp")
    def test_rows_after_clearing(self):
        """The same with memories, where rst clears them and is 1 for as many cycles as they have cells."""
        for folder, name, stimulus, cells in (("language", "memory", "memory", 4), ("verilog", "fifo", "pushed", 2), ("processor", "kernel", "one", 16)):
            with self.subTest(name=name):
                self.assertEqual(self.wrapped(folder, name, "--reset", "--clear", "--enable"), [])
                self.assertIn(f"1 for {cells} cycles, after a cycle of 0, it clears the memories too.", self.held("w.v"))
                self.same(folder, name, stimulus, random.Random(name), cells)

    @needs("iverilog", "vvp")
    def test_rows_of_random_designs(self):
        for seed in range(1, 13):
            case = case_of(seed)
            cells = max([one.depth.value for one in case.design.tree.declarations if isinstance(one, Memory)], default=0)
            if cells > 64 or not case.streams[0]:
                continue
            with self.subTest(seed=seed):
                for name, text in (("lattice.toml", case.lattice_text), ("d.sapper", case.text), ("one.txt", case.stimuli[0])):
                    self.put(name, text)
                self.program("compile", "lattice.toml", "d.sapper", "d.v")
                self.done("wrap", "lattice.toml", "d.sapper", "d.v", "w", "--reset", "--clear", "--enable")
                self.compared(self.path("lattice.toml"), self.path("d.sapper"), self.path("one.txt"), random.Random(seed), cells)

    @needs("iverilog", "vvp")
    def test_rows_after_clearing_retagged_cells(self):
        self.put("d.sapper", "input a : 8;\ninput at : 1;\nmem m : 8[2] enforced low;\nreg x : 8 dynamic;\nstate S enforced low {\n  x := m[at];\n"
                 "  if (a[0:0]) {\n    m[at] := a;\n  } else {\n    setTag(m[at], high);\n  }\n  goto S;\n}\n")
        self.put("one.txt", "5@low 0@low\n0@low 1@low\n9@low 1@low\n4@high 0@low\n1@low 1@low\n")
        self.program("compile", "lattice.toml", "d.sapper", "d.v")
        self.done("wrap", "lattice.toml", "d.sapper", "d.v", "w", "--reset", "--clear", "--enable")
        self.compared(self.path("lattice.toml"), self.path("d.sapper"), self.path("one.txt"), random.Random(1), 2)

    def same(self, folder, name, stimulus, draw, cells=0):
        self.compared(*(example(f"{folder}/{file}") for file in ("lattice.toml", f"{name}.sapper", f"{stimulus}.txt")), draw, cells)

    def compared(self, lattice, design, stimulus, draw, cells):
        interface = Interface(lattice, design)
        with open(stimulus, encoding="utf-8") as file:
            cycles = cycles_of(file.read())
        self.put("bench.v", bench(interface, cycles, draw, cells))
        self.silent("iverilog", "-g2005", "-o", "bench", "bench.v", "w.v")
        told = self.call("vvp", "-n", "bench").stdout.splitlines()
        levels = {code: level for level, code in interface.codes.items()}
        rows = [re.sub(r"@(\d+)", lambda tag: "@" + levels[int(tag[1])], line) for line in told if line.startswith("cycle ")]
        self.assertEqual(rows, self.program("run", lattice, design, stimulus))
        names = {refusal.wire[2:]: refusal.name for refusal in interface.refusals}
        trace = [re.match(r"cycle (\d+): site (\d+) .* at (\w+)$", line).groups() for line in self.program("trace", lattice, design, stimulus)]
        refused = [line.split(" ")[1:] for line in told if line.startswith("refused ")]
        self.assertEqual([(cycle, name, levels[int(code)]) for cycle, name, code in refused], [(cycle, names[site], level) for cycle, site, level in trace])
        self.assertEqual([line for line in told if line.startswith("wrong")], [])

    @needs("iverilog", "vvp")
    def test_memories_keep_their_tags(self):
        """What a reset leaves in a memory stays as secret as it is."""
        design = "input a : 8;\ninput on : 1;\nmem m : 8[2] dynamic;\nreg x : 8 dynamic;\nstate S enforced low {\n  x := m[0];\n  if (on) {\n    m[0] := a;\n  }\n  goto S;\n}\n"
        self.put("d.sapper", design)
        self.program("compile", "lattice.toml", "d.sapper", "d.v")
        status, _, errors = self.script("wrap", "lattice.toml", "d.sapper", "d.v", "w", "--reset")
        self.assertEqual((status, errors), (0, ["wrap: warning: rst leaves the memory m (2 cells of 8 bits) and its tags as they are"]))
        self.put("bench.v", """module bench; reg clk = 0, rst = 0; reg [7:0] a = 77; reg ta = 1; reg on = 1; wire [7:0] x; wire [0:0] tx;
w dut(.clk(clk), .rst(rst), .v_a(a), .t_a(ta), .v_on(on), .t_on(1'b0), .v_x(x), .t_x(tx));
initial begin #1 clk = 1; #1 clk = 0; a = 5; ta = 0; rst = 1; #1 clk = 1; #1 $display("%0d@%0d", x, tx); clk = 0; rst = 0; on = 0;
#1 clk = 1; #1 $display("%0d@%0d", x, tx); end endmodule\n""")
        self.silent("iverilog", "-g2005", "-o", "bench", "bench.v", "w.v")
        self.assertEqual(self.call("vvp", "-n", "bench").stdout.splitlines(), ["0@0", "77@1"])

    def test_memory_that_is_never_written(self):
        """It becomes its number, and a tag of it is reset as any register."""
        text = "input a : 1;\nmem m : 8[2] dynamic;\nreg x : 8 dynamic;\nstate S enforced low {\n  x := m[a];\n  if (a < 0) {\n    m[a] := 1;\n  }\n  goto S;\n}\n"
        self.put("d.sapper", text)
        self.program("compile", "lattice.toml", "d.sapper", "d.v")
        self.assertIn("always @(posedge clk) if (1'd0) v_m", self.held("d.v"))
        self.done("wrap", "lattice.toml", "d.sapper", "d.v", "w", "--reset")
        self.assertNotIn("v_m", self.held("w.v"))
        self.assertRegex(self.held("w.v"), r"if \(rst\) t_m <= 1'd0; else t_m <= ")

    def test_memories_are_named(self):
        self.assertEqual(len(self.wrapped("processor", "kernel", "--reset")), 2)
        self.assertEqual(self.wrapped("processor", "kernel", "--reset", "--clear"), [])
        self.assertEqual(self.wrapped("processor", "kernel", "--enable"), [])

    @needs("iverilog", "vvp")
    def test_tags_that_are_no_codes(self):
        self.put("lattice.toml", CHAIN)
        self.put("d.sapper", "input a : 8;\nreg x : 8 dynamic;\nstate S enforced low {\n  x := a;\n  goto S;\n}\n")
        self.program("compile", "lattice.toml", "d.sapper", "d.v")
        self.done("wrap", "lattice.toml", "d.sapper", "d.v", "w", "--reset")
        self.assertIn("localparam [1:0] LEVEL_high = 2'd3;", self.held("w.v"))
        bad = next(code for code in range(4) if f"= 2'd{code};" not in "".join(re.findall(r"localparam.*\n", self.held("w.v"))))
        for tag, stops in ((f"2'd{bad}", True), ("2'bx0", True), ("2'd3", False)):
            self.put("bench.v", f"module bench; reg clk = 0; w dut(.clk(clk), .rst(1'b0), .v_a(8'd1), .t_a({tag}));\ninitial begin #1 clk = 1; #1 $display(\"on\"); end endmodule\n")
            self.silent("iverilog", "-g2005", "-o", "bench", "bench.v", "w.v")
            told = self.call("vvp", "-n", "bench").stdout
            self.assertEqual("the code of no level" in told, stops, told)
            self.assertEqual("on\n" in told, not stops, told)

    def test_ports(self):
        lattice, design = example("language/lattice.toml"), example("language/memory.sapper")
        self.program("compile", lattice, design, "m.v")
        self.done("wrap", lattice, design, "m.v", "w", "--keep", "y", "--tie", "a=low", "--tie", "b=high")
        head = self.held("w.v").partition(");")[0]
        ports = [line.split()[-1].rstrip(",") for line in head.splitlines() if line.startswith("  ")]
        refused = ["refused_write_k", "level_write_k", "refused_write_y", "level_write_y", "refused_goto_S", "level_goto_S", "refused_any"]
        self.assertEqual(ports, ["clk", "v_a", "v_b", "v_y", "t_y", *refused])

    def test_options_twice(self):
        """What stands behind an option that is given twice counts together."""
        lattice, design = example("language/lattice.toml"), example("language/memory.sapper")
        self.program("compile", lattice, design, "m.v")
        self.done("wrap", lattice, design, "m.v", "one", "--keep", "x", "y", "--tie", "a=low", "b=high")
        self.done("wrap", lattice, design, "m.v", "two", "--keep", "y", "--keep", "x", "--tie", "b=high", "--tie", "a=low")
        self.assertEqual(self.held("one.v"), self.held("two.v").replace("two", "one"))
        head = self.held("one.v").partition(");")[0]
        self.assertEqual([f" {name}" in head for name in ("t_a", "t_b", "v_x", "v_y")], [False, False, True, True])

    def test_names_of_refusals(self):
        """A site is numbered among those of its kind and entity, and an entity's own number makes no two names the same."""
        writes = "  x := a;\n  x_2 := a;\n  x := a;\n  x := a;\n  x_2 := 1;\n"
        self.put("d.sapper", f"input a : 8;\nreg x : 8 enforced low;\nreg x_2 : 8 enforced low;\nstate S enforced low {{\n{writes}  goto S;\n}}\n")
        names = [refusal.name for refusal in Interface(self.path("lattice.toml"), self.path("d.sapper")).refusals]
        self.assertEqual(names, ["refused_write_x", "refused_write_x_2", "refused_write_x_2_", "refused_write_x_3", "refused_write_x_2_2", "refused_goto_S"])

    def test_bad_words(self):
        lattice, design = example("first/lattice.toml"), example("first/adder.sapper")
        self.program("compile", lattice, design, "top.v")
        for words, line in (
            (["top.v", "w", "--tie", "b=low"], "--tie b=low: b is no input: a"), (["top.v", "w", "--tie", "a=lower"], "lower is no level: low, high"),
            (["top.v", "w", "--tie", "a=low", "a=high"], "--tie a=high: a is tied twice"),
            (["top.v", "w", "--keep", "y"], "--keep y: no register: x"), (["top.v", "always"], "always can't be the name of a module"), (["top.v", "2w"], "2w can't be the name of a module"),
        ):
            self.assertEqual(self.script("wrap", lattice, design, *words), (2, [], [f"wrap: {line}"]))
        self.program("compile", lattice, example("first/guarded.sapper"), "other.v")
        status, lines, errors = self.script("wrap", lattice, design, "other.v", "w")
        self.assertEqual((status, lines, errors), (5, [], ["wrap: other.v isn't the module of this design: it has no output v_x of 8 bits"]))
        self.put("more.sapper", "input a : 8;\nreg x : 8 dynamic;\nreg y : 8 dynamic;\nstate S enforced low {\n  x := a;\n  goto S;\n}\n")
        self.program("compile", lattice, "more.sapper", "more.v")
        told = self.script("wrap", lattice, design, "more.v", "w")
        self.assertEqual(told, (5, [], ["wrap: more.v isn't the module of this design: it has 2 ports more"]))
        self.assertEqual(self.script("wrap", lattice, design, "none.v", "w")[0], 6)
        status, _, errors = self.script("wrap", lattice, design, "./top.v", "top")
        self.assertEqual((status, self.held("top.v").split("\n")[0]), (2, "// level low 0"))
        self.assertIn("top.v is a file that is read", errors[-1])

    def test_no_file_that_is_read(self):
        """Nor a part of a system."""
        design = self.put("part.v", "input a : 8;\nreg x : 8 dynamic;\nstate S enforced low {\n  x := a;\n  goto S;\n}\n")
        before = self.held(design)
        self.put("system.toml", 'parts = [["p", "part.v"], ["q", "part.v"]]\nwires = []\n')
        self.program("link", "lattice.toml", "system.toml", "linked.v")
        for name in ("part", "linked", "./part"):
            told = self.script("wrap", "lattice.toml", "system.toml", "linked.v", name)
            self.assertEqual(told, (2, [], [f"wrap: {name}.v is a file that is read: take another name"]))
        self.assertEqual(self.held(design), before)

    def two(self):
        self.wrapped("first", "guarded", "--reset", "--enable", "--refusals", "any", top="first")
        self.wrapped("first", "adder", "--reset", "--refusals", "none", top="second")
        self.put("system.v", SYSTEM)

    @needs("iverilog", "vvp")
    def test_two_in_one_system(self):
        self.two()
        self.put("bench.v", """module bench; reg clk = 0, rst = 0; reg [7:0] a = 0; reg t = 1; wire [7:0] one, other; wire any; integer i;
system dut(.clk(clk), .rst(rst), .v_a(a), .t_a(t), .one(one), .other(other), .any(any));
initial for (i = 0; i < 8; i = i + 1) begin a = i; t = i < 2; rst = i == 5; #1 $write("%0d ", any); clk = 1; #1 $display("%0d %0d", one, other); clk = 0; end endmodule\n""")
        self.silent("iverilog", "-g2005", "-Wall", "-o", "bench", "bench.v", "system.v", "first.v", "second.v")
        # The register y begins with 7 and refuses the first two; x is what y was, and one more; cycle 5 resets both.
        wanted = ["1 7 8", "1 7 8", "0 2 8", "0 3 3", "0 4 4", "0 7 0", "0 6 8", "0 7 7"]
        self.assertEqual(self.call("vvp", "-n", "bench").stdout.splitlines(), wanted)

    @needs("verilator", "yosys")
    def test_two_are_silent(self):
        self.two()
        self.silent("verilator", "--lint-only", "--top-module", "system", "system.v", "first.v", "second.v")
        self.silent("yosys", "-q", "-p", "read_verilog system.v first.v second.v; hierarchy -check -top system; proc; opt_clean; check -assert")

    @needs("yosys", "nextpnr-ice40")
    def test_two_on_a_device(self):
        self.two()
        status, lines, _ = self.script("device", "--top", "system", "system.v", "first.v", "second.v")
        self.assertEqual(status, 0)
        self.assertRegex(lines[0], r"^device: \d+ LUTs, \d+ flip-flops, ")
        self.assertRegex(lines[1], r"^placed: \d+ of \d+ logic cells, shift registers included; clock [\d.]+ MHz$")

    def test_system_file(self):
        """A linked module is wrapped by its system file, with the names of the parts in front."""
        self.put("one.sapper", "input a : 8;\nreg x : 8 enforced low;\nmem m : 8[2] dynamic;\nstate S enforced low {\n  x := a + m[0];\n  m[0] := a;\n  goto S;\n}\n")
        self.put("system.toml", 'parts = [["p", "one.sapper"], ["q", "one.sapper"]]\nwires = [["p.x", "q.a"]]\n')
        self.program("link", "lattice.toml", "system.toml", "linked.v")
        status, _, errors = self.script("wrap", "lattice.toml", "system.toml", "linked.v", "w", "--reset", "--keep", "q_x", "--tie", "p_a=high")
        self.assertEqual((status, len(errors)), (0, 2))
        ports = [line.split()[-1].rstrip(",") for line in self.held("w.v").partition(");")[0].splitlines() if line.startswith("  ")]
        sites = [f"{word}_{kind}" for kind in ("write_p_x", "goto_p_S", "write_q_x", "goto_q_S") for word in ("refused", "level")]
        self.assertEqual(ports, ["clk", "rst", "v_p_a", "v_q_x", "t_q_x", *sites, "refused_any"])
        self.assertIn("always @(posedge clk) if (~rst) t_p_m <= ", self.held("w.v"))


def bench(interface, cycles, draw, cells):
    """A testbench of a wrapper: what comes before a reset at random, then the cycles, some of them held for a while."""
    inputs, registers = list(interface.names("inputs").items()), list(interface.registers)
    lines = ["module bench;", "reg clk = 0, rst = 0, en = 1;"]
    tag = f"[{interface.tag_width - 1}:0]"
    for name, width in inputs:
        lines.append(f"reg [{width - 1}:0] v_{name} = 0; reg {tag} t_{name} = 0;")
    for name, width in interface.registers.items():
        lines.append(f"wire [{width - 1}:0] v_{name}; wire {tag} t_{name};")
    for refusal in interface.refusals:
        lines.append(f"wire {refusal.name}; wire {tag} {refusal.level_name};")
    ports = [f"{letter}_{name}" for name in [name for name, _ in inputs] + registers for letter in "vt"]
    ports += [name for refusal in interface.refusals for name in (refusal.name, refusal.level_name)]
    ports += ["refused_any"] * bool(interface.refusals)
    lines.append(f"wire refused_any;\nw dut(.clk(clk), .rst(rst), .en(en){''.join(f', .{port}({port})' for port in ports)});\ninitial begin")

    def give(fields):
        for (name, width), (value, level) in zip(inputs, fields):
            lines.append(f"  v_{name} = {width}'d{value}; t_{name} = {interface.codes[level]};")

    def step(rst, en):
        lines.append(f"  rst = {rst}; en = {en}; #1;")
        if rst or not en:
            lines.append('  if (refused_any) $display("wrong: a refusal in a cycle that doesn\'t happen");')

    def edge():
        lines.append("  clk = 1; #1; clk = 0; #1;")

    for _ in range(12):
        give(draw.choice(cycles))
        step(0, draw.randrange(2))
        edge()
    step(0, 0)
    edge()
    for en in [draw.randrange(2) for _ in range(max(cells, draw.randrange(1, 4)))]:
        give(draw.choice(cycles))
        step(1, en)
        edge()
    for number, fields in enumerate(cycles, 1):
        for _ in range(draw.choice([0, 0, 1, 2])):
            give(draw.choice(cycles))
            step(0, 0)
            edge()
        give(fields)
        step(0, 1)
        for refusal in interface.refusals:
            lines.append(f'  if ({refusal.name}) $display("refused {number} {refusal.name} %0d", {refusal.level_name});')
        lines.append("  clk = 1; #1;")
        shown = "".join(f' $write(" {name}=%0d@%0d", v_{name}, t_{name});' for name in registers)
        lines.append(f'  $write("cycle {number}:");{shown} $display(""); clk = 0; #1;')
    return "\n".join([*lines, "  $finish;", "end", "endmodule", ""])
