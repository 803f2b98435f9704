"""What docs/INTEGRATING.md says of designs and of what a tool makes of them."""
import re

from .support import Folder, needs

HOLD = """input run : 1;
reg n : 2 dynamic;
state P enforced low {
  if (run == 1) { fall; } else { goto P; }
  state A enforced low { n := 1; goto B; }
  state B enforced low { n := 2; goto C; }
  state C enforced low { n := 3; goto A; }
}
"""
HELD = """input run : 1;
reg n : 2 dynamic;
state A enforced low { if (run == 0) { goto A; } else { n := 1; goto B; } }
state B enforced low { if (run == 0) { goto B; } else { n := 2; goto C; } }
state C enforced low { if (run == 0) { goto C; } else { n := 3; goto A; } }
"""
MEMORY = """input ra : 9;
input wa : 9;
input we : 1;
input d : 16;
mem m : 16[512] enforced high;
reg q : 16 dynamic;
state S enforced low { q := m[ra]; if (we) { m[wa] := d; } goto S; }
"""


class Integrating(Folder):
    def numbers(self, design, stimulus):
        self.put("d.sapper", design)
        self.put("s.txt", stimulus)
        return [re.findall(r"=(\d+)", row) for row in self.program("run", "lattice.toml", "d.sapper", "s.txt")]

    def test_holding(self):
        stimulus = "1@low\n1@low\n0@low\n1@low\n1@low\n"
        self.assertEqual([row[0] for row in self.numbers(HOLD, stimulus)], ["1", "2", "2", "1", "2"])
        self.assertEqual([row[0] for row in self.numbers(HELD, stimulus)], ["1", "2", "2", "3", "1"])

    def test_new_and_old_values(self):
        design = "reg x : 4 dynamic;\nreg y : 4 dynamic;\nreg z : 4 dynamic;\nmem m : 4[2] dynamic;\n"
        design += "state S enforced low { x := 1; y := x; m[0] := 7; z := m[0]; goto S; }\n"
        self.assertEqual(self.numbers(design, "\n\n"), [["1", "1", "0"], ["1", "1", "7"]])

    def test_signs(self):
        design = "input a : 1;\ninput b : 2;\nreg x : 1 dynamic;\nreg y : 1 dynamic;\nreg z : 2 dynamic;\n"
        design += "state S enforced low { x := a && b; y := a || b; z := 1 << b; goto S; }\n"
        # With a 1 and b 2: b isn't all ones, but any; and 1 << 2 has no bit left of two.
        self.assertEqual(self.numbers(design, "1@low 2@low\n0@low 2@low\n"), [["0", "1", "0"], ["0", "1", "0"]])

    @needs("yosys")
    def test_block_memory(self):
        self.put("d.sapper", MEMORY)
        self.program("compile", "lattice.toml", "d.sapper", "d.v")
        self.done("wrap", "lattice.toml", "d.sapper", "d.v", "w", "--reset", "--clear", "--enable", "--refusals", "none")
        for file, top in (("d.v", "top"), ("w.v", "w")):
            ran = self.call("yosys", "-p", f"read_verilog {file}; synth_ice40 -flatten -top {top}; stat")
            self.assertRegex(ran.stdout, r"SB_RAM40_4K +2\n", file)
