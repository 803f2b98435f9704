"""Modules of Verilog as they are written every day, which flow/to_subset brings over, and others that it refuses, with the line that it says."""

BROUGHT_OVER = {
    "counter": """
module counter(input clk, input rst, input en, output reg [7:0] count, output wrapped);
  always @(posedge clk) if (rst) count <= 0; else if (en) count <= count + 1;
  assign wrapped = &count;
endmodule
""",
    # an output as its register, the same register at a second output, parts of one, an input and a constant as outputs
    "outputs": """
module outputs(input clk, input [3:0] a, output reg [3:0] q = 4'd5, output [3:0] same, output [1:0] part, output [4:0] joined, output [3:0] through, output [2:0] seven);
  reg low = 1;
  always @(posedge clk) begin q <= q + a; low <= ~low; end
  assign same = q; assign part = q[2:1]; assign joined = {low, q}; assign through = a; assign seven = 7;
endmodule
""",
    "without_clock": "module without_clock(input [7:0] a, b, output [7:0] sum, output less); assign sum = a + b; assign less = a < b; endmodule",
    "other_clock": "module other_clock(input tick, input d, output reg q = 0); always @(posedge tick) q <= d; endmodule",
    "names": """
module names(input clk, input n0, input r_a, input v_a, input a, input m_m, input t_x, output reg x, output reg v_x, output top, output n1);
  reg [1:0] m [0:1]; reg \\odd.name = 0; initial begin x = 0; v_x = 1; m[0] = 0; m[1] = 0; end
  always @(posedge clk) begin m[a] <= {n0, r_a}; x <= m[v_a][0] ^ m_m; v_x <= t_x & \\odd.name ; \\odd.name <= x; end
  assign top = n0 & a; assign n1 = x | r_a;
endmodule
""",
    "hierarchy": """
module stage #(parameter W = 4, parameter START = 0)(input clk, input [W-1:0] d, output reg [W-1:0] q);
  initial q = START;
  always @(posedge clk) q <= d + START;
endmodule
module hierarchy(input clk, input [7:0] d, output [7:0] q);
  wire [7:0] between [0:4];
  genvar k;
  assign between[0] = d;
  generate for (k = 0; k < 4; k = k + 1) begin : line
    stage #(.W(8), .START(k)) one(.clk(clk), .d(between[k]), .q(between[k + 1]));
  end endgenerate
  assign q = between[4] ^ between[2];
endmodule
""",
    "alu": """
module alu(input clk, input rst, input [3:0] op, input signed [15:0] a, b, output reg [15:0] y, output reg flag);
  always @(posedge clk) begin
    case (op)
      0: y <= a + b; 1: y <= a - b; 2: y <= a & b; 3: y <= a | b; 4: y <= a ^ b; 5: y <= a << b[3:0]; 6: y <= $unsigned(a) >> b[3:0]; 7: y <= a >>> b[3:0];
      8: y <= a < b; 9: y <= $unsigned(a) < $unsigned(b); 10: y <= a * b; 11: y <= -a; 12: y <= ~(a ^ b); 13: y <= {16{a[15]}}; 14: y <= a >= b;
      default: y <= y;
    endcase
    flag <= a > b || !(a != b) && ^a;
    if (rst) begin y <= 0; flag <= 0; end
  end
endmodule
""",
    "priority": """
module priority_of(input [7:0] ask, output reg [2:0] first, output reg none);
  always @* begin
    none = 0; first = 0;
    casez (ask)
      8'b1???????: first = 7; 8'b01??????: first = 6; 8'b001?????: first = 5; 8'b0001????: first = 4;
      8'b00001???: first = 3; 8'b000001??: first = 2; 8'b0000001?: first = 1; 8'b00000001: first = 0;
      default: none = 1;
    endcase
  end
endmodule
""",
    "cases": """
module cases(input clk, input [2:0] s, input [1:0] asks, input [7:0] a, b, c, output reg [7:0] q, output reg [7:0] p);
  initial begin q = 1; p = 2; end
  always @(posedge clk) begin
    case (s) 0, 1: q <= a; 2: q <= b; 3: q <= c; 3: q <= a; 7: q <= q ^ a; endcase
    case (1'b1) asks[0]: p <= a; asks[1]: p <= b; default: p <= p + 1; endcase
  end
endmodule
""",
    # the last arm may give anything
    "any_default": """
module any_default(input [1:0] s, input [3:0] a, b, c, output reg [3:0] y);
  always @* case (s) 0: y = a; 1: y = b; 2: y = c; default: y = 4'bx; endcase
endmodule
""",
    "parts": """
module parts(input clk, input [31:0] a, input [1:0] at, input [4:0] bit_at, input on, output reg [31:0] q, output [7:0] byte_of, output one);
  initial q = 32'hdeadbeef;
  always @(posedge clk) begin
    if (on) q[8 * at +: 8] <= a[7:0]; else q[bit_at] <= a[31];
  end
  assign byte_of = a[8 * at +: 8]; assign one = a[bit_at];
endmodule
""",
    "loops": """
module loops(input clk, input [15:0] a, output reg [4:0] ones, output [15:0] turned);
  function [4:0] count(input [15:0] word); integer k; begin count = 0; for (k = 0; k < 16; k = k + 1) count = count + word[k]; end endfunction
  genvar g;
  generate for (g = 0; g < 16; g = g + 1) begin : turn assign turned[g] = a[15 - g]; end endgenerate
  initial ones = 0;
  always @(posedge clk) ones <= count(a);
endmodule
""",
    "wide": """
module wide(input clk, input [63:0] a, b, input [6:0] n, output reg [63:0] sum, product, left, right, output reg signed [63:0] kept, output equal);
  initial begin sum = 0; product = 0; left = 64'hffffffffffffffff; right = 0; kept = 0; end
  always @(posedge clk) begin sum <= a + b + left; product <= a * b; left <= a << n; right <= a >> n; kept <= $signed(a) >>> n; end
  assign equal = a == b;
endmodule
""",
    "reductions": """
module reductions(input [7:0] a, b, input c, output [9:0] y, output [7:0] z);
  assign y = {&a, |a, ^a, ~&a, ~|a, ~^a, !a, a && b, a || c, a === b};
  assign z = {8{c}} & a | {{4{a[7]}}, b[3:0]};
endmodule
""",
    "signed": """
module of_signs(input signed [3:0] a, input signed [7:0] b, input [3:0] u, output [7:0] sum, mixed, product, moved, output less, least, more, output [7:0] turned);
  assign sum = a + b; assign mixed = a + u; assign product = a * b; assign moved = a >>> u[1:0]; assign turned = -a;
  assign less = a < b; assign least = a <= b; assign more = b > $signed(u);
endmodule
""",
    "random_bits": """
module random_bits(input clk, input rst, output reg [63:0] s);
  always @(posedge clk) if (rst) s <= 64'd1; else s <= {s[62:0], s[63] ^ s[62] ^ s[60] ^ s[59]};
endmodule
""",
    "ram": """
module ram(input clk, input we, input [3:0] at, input [31:0] d, input [3:0] lanes, output reg [31:0] q, output [31:0] now);
  reg [31:0] cells [0:15]; integer k;
  initial begin q = 0; for (k = 0; k < 16; k = k + 1) cells[k] = 32'h01020304; end
  always @(posedge clk) begin
    if (we) for (k = 0; k < 4; k = k + 1) if (lanes[k]) cells[at][8 * k +: 8] <= d[8 * k +: 8];
    q <= cells[at];
  end
  assign now = cells[at];
endmodule
""",
    "registers": """
module registers(input clk, input we, input [2:0] rd, rs, rt, input [15:0] d, output [15:0] a, b);
  reg [15:0] file [0:7]; integer k;
  initial for (k = 0; k < 8; k = k + 1) file[k] = 0;
  always @(posedge clk) if (we && rd != 0) file[rd] <= d;
  assign a = rs == 0 ? 0 : file[rs]; assign b = rt == 0 ? 0 : file[rt];
endmodule
""",
    # two writes that are never at once
    "stack": """
module stack(input clk, input push, input twice, input pop, input [7:0] d, output [7:0] top, output reg [2:0] at);
  reg [7:0] cells [0:7]; integer k;
  initial begin at = 0; for (k = 0; k < 8; k = k + 1) cells[k] = 9; end
  always @(posedge clk)
    if (push) begin at <= at + 1; cells[at] <= d; end
    else if (twice) cells[at - 3'd1] <= {cells[at - 3'd1][6:0], 1'b0};
    else if (pop) at <= at - 1;
  assign top = cells[at - 3'd1];
endmodule
""",
    "constants": """
module constants(input [1:0] s, output [7:0] y);
  reg [7:0] table_of [0:3]; integer k;
  initial for (k = 0; k < 4; k = k + 1) table_of[k] = 8'd77;
  assign y = table_of[s];
endmodule
""",
    "transmitter": """
module transmitter(input clk, input rst, input start, input [7:0] data, output tx, output busy);
  reg [9:0] frame; reg [3:0] left; reg [1:0] wait_for;
  always @(posedge clk)
    if (rst) begin frame <= 10'h3ff; left <= 0; wait_for <= 0; end
    else if (left == 0) begin if (start) begin frame <= {1'b1, data, 1'b0}; left <= 10; wait_for <= 3; end end
    else if (wait_for != 0) wait_for <= wait_for - 1;
    else begin frame <= {1'b1, frame[9:1]}; left <= left - 1; wait_for <= 3; end
  assign tx = frame[0]; assign busy = left != 0;
endmodule
""",
    "tasks": """
module tasks(input clk, input [7:0] a, b, output reg [7:0] low, high);
  task order(input [7:0] x, y, output [7:0] least, most); begin least = x < y ? x : y; most = x < y ? y : x; end endtask
  reg [7:0] l, h;
  initial begin low = 0; high = 0; end
  always @* order(a, b, l, h);
  always @(posedge clk) begin low <= l; high <= h; end
endmodule
""",
    "blocking": """
module blocking(input clk, input [7:0] a, output reg [7:0] q, output reg [7:0] p);
  reg [7:0] t;
  initial begin q = 0; p = 0; end
  always @(posedge clk) begin t = a + q; t = t ^ {t[3:0], t[7:4]}; q <= t; p <= q; end
endmodule
""",
}

# The text of a file, and the line, in which FILE is the file's name.
REFUSED = {
    "latch": ("module top(input on, input d, output reg q);\n  always @* if (on) q = d;\nendmodule\n", "FILE:2.3-2.27: a latch"),
    "reset_between_edges": (
        "module top(input clk, input rst, input d, output reg q);\n  always @(posedge clk or posedge rst) if (rst) q <= 0; else q <= d;\nendmodule\n",
        "FILE:2.3-2.69: a register with an asynchronous set or reset",
    ),
    "asynchronous_counter": (
        "module top(input clk, input rst_n, output reg [7:0] q);\n  always @(posedge clk or negedge rst_n)\n    if (!rst_n) q <= 0; else q <= q + 1;\nendmodule\n",
        "FILE:2.3-3.41: a register with an asynchronous set or reset",
    ),
    "set_and_reset": (
        "module top(input clk, input set, input rst, output reg q);\n  always @(posedge clk or posedge set or posedge rst)\n"
        "    if (rst) q <= 0; else if (set) q <= 1; else q <= ~q;\nendmodule\n",
        "FILE:2.3-3.57: a register with an asynchronous set or reset",
    ),
    "latch_that_counts": ("module top(input on, output reg [3:0] q);\n  always @* if (on) q = q + 1;\nendmodule\n", "FILE:2.3-2.31: a latch"),
    "two_clocks": (
        "module top(input a, input b, input d, output reg p, output reg q);\n  always @(posedge a) p <= d;\n  always @(posedge b) q <= p;\nendmodule\n",
        "FILE:2.3-2.30: a second clock",
    ),
    "falling_edge": (
        "module top(input clk, input d, output reg q);\n  always @(negedge clk) q <= d;\nendmodule\n",
        "FILE:2.3-2.32: a falling edge, or a write without an edge",
    ),
    "gated_clock": (
        "module top(input clk, input on, input d, output reg q);\n  wire gated = clk & on;\n  always @(posedge gated) q <= d;\nendmodule\n",
        "FILE:3.3-3.34: a clock that is no input of one bit",
    ),
    "clock_as_value": (
        "module top(input clk, input d, output reg q, output c);\n  always @(posedge clk) q <= d;\n  assign c = clk;\nendmodule\n",
        "output c: the clock as a value",
    ),
    "wide_port": ("module top(input [64:0] a, output b);\n  assign b = ^a;\nendmodule\n", "port a: an inout, or more than 64 bits, or no name of the subset"),
    "inout": ("module top(inout a, output b);\n  assign b = a;\nendmodule\n", "port a: an inout, or more than 64 bits, or no name of the subset"),
    "odd_port": ("module top(input \\a.b , output c);\n  assign c = \\a.b ;\nendmodule\n", "port a.b: an inout, or more than 64 bits, or no name of the subset"),
    "wide_register": (
        "module top(input clk, input d, output q);\n  reg [79:0] r = 0;\n  always @(posedge clk) r <= {r[78:0], d};\n  assign q = r[79];\nendmodule\n",
        "FILE:3.3-3.43: a register of 80 bits",
    ),
    "wide_word": ("module top(input [63:0] a, b, output c);\n  assign c = {a, b} == {b, a};\nendmodule\n", "FILE:2.14-2.30: a word of 128 bits"),
    "division": ("module top(input [7:0] a, b, output [7:0] c);\n  assign c = a / b;\nendmodule\n", "FILE:2.14-2.19: a division or a power"),
    "loop": ("module top(input a, output b);\n  wire c = a ^ d;\n  wire d = c & a;\n  assign b = d;\nendmodule\n", "FILE:3.12-3.17: a loop of wires without a register"),
    "three_states": ("module top(input a, on, output b);\n  assign b = on ? a : 1'bz;\nendmodule\n", "FILE:2.14-2.27: a wire that may be driven by nothing"),
    "driven_by_nothing": ("module top(input a, output b, output c);\n  assign b = a;\nendmodule\n", "output c: a bit that is x or z, or driven by nothing"),
    "two_drivers": (
        "module top(input clk, input a, input b, output reg q);\n  always @(posedge clk) q <= a;\n  always @(posedge clk) q <= b;\nendmodule\n",
        "FILE:2.3-2.32: a second driver of a wire or register",
    ),
    "two_writes": (
        "module top(input clk, input [1:0] at, by, input [3:0] d, e, input [1:0] of, output [3:0] q);\n  reg [3:0] m [0:3];\n"
        "  always @(posedge clk) begin m[at] <= d; m[by] <= e; end\n  assign q = m[of];\nendmodule\n",
        "memory m: 2 writes that may be at once",
    ),
    "ten_cells": (
        "module top(input clk, input [3:0] at, input d, output q);\n  reg m [0:9];\n  always @(posedge clk) m[at] <= d;\n  assign q = m[at];\nendmodule\n",
        "memory m: 10 cells of 1 bits from index 0 on",
    ),
    "cells_from_one": (
        "module top(input clk, input [2:0] at, input d, output q);\n  reg m [1:8];\n  always @(posedge clk) m[at] <= d;\n  assign q = m[at];\nendmodule\n",
        "memory m: 8 cells of 1 bits from index 1 on",
    ),
    "index_beyond": (
        "module top(input clk, input [3:0] at, input d, output q);\n  reg m [0:7];\n  always @(posedge clk) m[at[2:0]] <= d;\n  assign q = m[at];\nendmodule\n",
        "FILE:4.14-4.15: an index that may be beyond the 8 cells of memory m",
    ),
    "table": (
        "module top(input [0:0] s, output [3:0] y);\n  reg [3:0] m [0:1];\n  initial begin m[0] = 3; m[1] = 5; end\n  assign y = m[s];\nendmodule\n",
        "memory m: its cells start with more than one number",
    ),
    "no_verilog": ("module top(input a, output b);\n  assign b = ;\nendmodule\n", None),
    "missing_module": ("module top(input a, output b);\n  other o(a, b);\nendmodule\n", None),
    "no_module": ("// nothing\n", "no module"),
}
