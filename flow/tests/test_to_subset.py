"""The words of to_subset, and what it names; test/verilog compares what it writes."""
import os

from .support import Folder, example, needs

COUNTER = """module counter(input clk, input rst_n, output reg [7:0] q);
  always @(posedge clk or negedge rst_n)
    if (!rst_n) q <= 0; else q <= q + 1;
endmodule
"""


class ToSubset(Folder):
    @needs("yosys")
    def test_asynchronous_reset(self):
        self.put("counter.v", COUNTER)
        told = self.script("to_subset", "counter.v", "out.v")
        self.assertEqual(told, (1, [], ["to_subset: counter.v:2.3-3.41: a register with an asynchronous set or reset"]))
        self.assertFalse(os.path.exists(self.path("out.v")))

    @needs("yosys")
    def test_same_counter_with_a_synchronous_reset(self):
        self.put("counter.v", COUNTER.replace(" or negedge rst_n", ""))
        self.assertEqual(self.done("to_subset", "counter.v", "out.v"), [])
        self.put("one.txt", "0\n1\n1\n0\n")
        self.program("wave", "lattice.toml", "out.v", "one.txt", "run.vcd")
        numbers = [line.split(" ")[0] for line in self.held("run.vcd").split("#0\n")[1].splitlines() if line.startswith("b")]
        # It begins with 0, and cycle 1 leaves that.
        self.assertEqual(numbers, ["b00000000", "b00000001", "b00000010", "b00000000"])

    @needs("yosys")
    def test_several_files(self):
        self.put("top.v", "module top(input clk, input d, output q); below b(clk, d, q); endmodule\n")
        self.put("below.v", "module below(input clk, input d, output reg q = 0); always @(posedge clk) q <= d; endmodule\n")
        self.assertEqual(self.done("to_subset", "top.v", "below.v", "out.v"), [])
        self.assertIn("always @(posedge clk) v_q <= v_d;", self.held("out.v"))
        self.assertEqual(self.done("to_subset", "--top", "below", "top.v", "below.v", "out.v"), [])

    def test_out_is_none_of_the_files(self):
        self.put("a.v", COUNTER)
        self.put("b.v", COUNTER)
        os.symlink(self.path("a.v"), self.path("link.v"))
        os.link(self.path("a.v"), self.path("hard.v"))
        for words in (("a.v", "a.v"), ("a.v", "b.v", "./a.v"), ("a.v", "link.v"), ("link.v", "b.v", self.path("a.v")), ("a.v", "hard.v")):
            status, lines, errors = self.script("to_subset", *words)
            self.assertEqual((status, lines), (2, []))
            self.assertIn(f"OUT is a file that is read: {words[-1]}", errors[-1])
        self.assertEqual((self.held("a.v"), self.held("b.v")), (COUNTER, COUNTER))
        self.assertEqual(self.script("to_subset", "a.v")[0], 2)

    def test_out_is_no_file_that_they_name(self):
        """Neither one that is included, from beside the file or from here, nor one with the numbers of a memory."""
        os.makedirs(self.path("deep"))
        self.put("deep/a.v", '`include "b.v"\n`include "c.vh"\nmodule a; endmodule\n')
        texts = {"deep/b.v": 'initial $readmemh("m.hex", m);\n', "deep/c.vh": "// c\n", "m.hex": "0\n", "deep/b_too.v": ""}
        for name, text in texts.items():
            self.put(name, text)
        for out in ("deep/b.v", "deep/c.vh", "m.hex"):
            status, _, errors = self.script("to_subset", "deep/a.v", out)
            self.assertEqual(status, 2)
            self.assertIn(f"OUT is a file that is read: {out}", errors[-1])
        self.assertEqual({name: self.held(name) for name in texts}, texts)
        self.assertNotIn("OUT is a file that is read", "".join(self.script("to_subset", "deep/a.v", "deep/b_too.v")[2]))

    @needs("yosys")
    def test_kinds_of_registers(self):
        """What Yosys names otherwise in each of these is told by what it is, at the `always` that makes it."""
        for head, body, line, what in (
            ("posedge clk or posedge rst", "if (rst) q <= 5; else q <= d", "2.3-2.69", "a register with an asynchronous set or reset"),
            ("posedge clk or posedge rst", "if (rst) q <= d; else q <= q + 1", "2.3-2.73", "a register with an asynchronous set or reset"),
            ("posedge clk, negedge rst", "if (!rst) q <= 0; else if (d[0]) q <= q + 1", "2.3-2.82", "a register with an asynchronous set or reset"),
            ("*", "if (rst) q = d", "2.3-2.30", "a latch"),
            ("negedge clk", "q <= d", "2.3-2.32", "a falling edge, or a write without an edge"),
        ):
            with self.subTest(head=head, body=body):
                self.put("a.v", f"module a(input clk, input rst, input [7:0] d, output reg [7:0] q);\n  always @({head}) {body};\nendmodule\n")
                self.assertEqual(self.script("to_subset", "a.v", "out.v"), (1, [], [f"to_subset: a.v:{line}: {what}"]))

    @needs("yosys")
    def test_examples(self):
        self.assertEqual(self.done("to_subset", example("verilog/comparer.v"), "out.v"), [])
        self.program("taint", example("verilog/lattice.toml"), "out.v", "tagged.v")
        with open(example("verilog/tagged/comparer.near.rows"), encoding="utf-8") as file:
            self.assertEqual(self.program("sim", example("verilog/lattice.toml"), "tagged.v", example("verilog/near.txt")), file.read().splitlines())
