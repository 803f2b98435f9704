"""The model of dumps on what was worked out by hand: the dump of a module, its rows, and the first fault of that dump with some of its lines exchanged; and on
itself: the dumps of modules drawn at random read back.

Usage: python3 -m model.wave_table
"""

import random
import sys

from .lattice import lattice_of
from .modules import module_of
from .random_lattices import random_lattice
from .random_modules import random_module, random_stimulus
from .waves import WaveFault, dump_of, id_of, rows_of, wave_of, wave_of_run

LATTICE = 'levels = ["low", "high"]\nbelow = [["low", "high"]]\n'
MODULE = """module top(input clk, output reg [7:0] v_x, output reg [0:0] t_x, output reg [7:0] v_y, output reg [0:0] t_y);
initial v_x = 8'd1;
initial t_x = 1'd0;
initial v_y = 8'd2;
initial t_y = 1'd0;
always @(posedge clk) v_x <= v_y;
always @(posedge clk) t_x <= t_y;
always @(posedge clk) v_y <= v_x;
always @(posedge clk) t_y <= t_x;
endmodule
"""
# Two cycles of it. Lines are counted from 1.
DUMP = """$timescale 1ns $end
$scope module top $end
$var reg 8 ! v_x $end
$var reg 1 " t_x $end
$var reg 8 # v_y $end
$var reg 1 $ t_y $end
$upscope $end
$enddefinitions $end
#0
b00000001 !
b0 "
b00000010 #
b0 $
#1
b00000010 !
b00000001 #
#2
b00000001 !
b00000010 #
"""
ROWS = "cycle 1: x=2@low y=1@low\ncycle 2: x=1@low y=2@low\n"
# A module without registers, and its dump on one cycle.
BARE = "module m(input clk, input [0:0] a, output wire [0:0] b); assign b = a; endmodule"
BARE_DUMP = "$timescale 1ns $end\n$scope module top $end\n$upscope $end\n$enddefinitions $end\n#0\n#1\n"
IDS = ((0, "!"), (1, '"'), (93, "~"), (94, '"!'), (95, '""'), (187, '"~'), (188, "#!"), (8835, "~~"), (8836, '"!!'), (830583, "~~~"), (830584, '"!!!'))

MODULES = 40
NONE = "none"
LARGE = "9" * 1_000_000
# First and last line that give way, what stands in their place, and the first fault.
EXCHANGED = (
    (1, 1, ["$timescale 1ps $end"], "Y1 line 1"),
    (1, 1, ["$timescale 1ns  $end"], "Y1 line 1"),
    (1, 1, ["$timescale\t1ns $end"], "Y1 line 1"),
    (1, 1, ["$timescale 1ns $end\r"], "Y1 line 1"),
    (1, 1, ["$timescale 1ns $end "], "Y1 line 1"),
    (1, 1, [LARGE], "Y1 line 1"),
    (1, 1, [""], "Y1 line 1"),
    (1, 1, [], "Y1 line 1"),
    (1, 2, ["$scope module top $end", "$timescale 1ns $end"], "Y1 line 1"),
    (2, 2, ["$scope module other $end"], "Y1 line 2"),
    (2, 2, [], "Y1 line 2"),
    (2, 2, ["$scope module top $end"] * 2, "Y1 line 3"),
    (2, 19, [], "Y1 line 2"),
    # variables
    (3, 3, ["$var wire 8 ! v_x $end"], "Y1 line 3"),
    (3, 3, [" $var reg 8 ! v_x $end"], "Y1 line 3"),
    (3, 3, ["$var reg 8 ! v_x $end "], "Y1 line 3"),
    (3, 3, ["$var reg 8 ! v_x $end\r"], "Y1 line 3"),
    (3, 3, ["$var\treg 8 ! v_x $end"], "Y1 line 3"),
    (3, 3, ["$var reg 8 ! v_x [7:0] $end"], "Y1 line 3"),
    (3, 3, ["$var reg 8 ! v_x"], "Y1 line 3"),
    (3, 3, ["$var reg  ! v_x $end"], "Y1 line 3"),
    (3, 3, ["$var reg 8x ! v_x $end"], "Y1 line 3"),
    (3, 3, ["$var reg +8 ! v_x $end"], "Y1 line 3"),
    (3, 3, ["$var reg 08 ! v_x $end"], "Y1 line 3"),
    (3, 3, ["$var reg 00 ! v_x $end"], "Y1 line 3"),
    (3, 3, ["$var reg 0 ! v_x $end"], "Y2 line 3"),
    (3, 3, ["$var reg 65 ! v_x $end"], "Y2 line 3"),
    (3, 3, ["$var reg 18446744073709551624 ! v_x $end"], "Y2 line 3"),
    (3, 3, [f"$var reg {LARGE} ! v_x $end"], "Y2 line 3"),
    (3, 3, ["$var reg 64 ! v_x $end"], "Y3 line 10"),
    (3, 3, ["$var reg 8  v_x $end"], "Y1 line 3"),
    (3, 3, ["$var reg 8 \x7f v_x $end"], "Y1 line 3"),
    (3, 3, ["$var reg 8 !\x80 v_x $end"], "Y1 line 3"),
    (3, 3, ['$var reg 8 " v_x $end'], "Y2 line 3"),
    (3, 3, ["$var reg 8 !! v_x $end"], "Y2 line 3"),
    (3, 3, ["$var reg 8 $end v_x $end"], "Y2 line 3"),
    (3, 3, ["$var reg 8 !  $end"], "Y1 line 3"),
    (3, 3, ["$var reg 8 ! v x $end"], "Y1 line 3"),
    (3, 3, ["$var reg 8 !  v_x $end"], "Y1 line 3"),
    (3, 3, ["$var reg 8 ! v_x  $end"], "Y1 line 3"),
    (3, 3, ["$var reg 8 ! v-x $end"], "Y2 line 3"),
    (3, 3, ["$var reg 8 ! 8x $end"], "Y2 line 3"),
    (3, 3, ["$var reg 8 ! v\tx $end"], "Y2 line 3"),
    (3, 3, ["$var reg 8 ! v_x\r $end"], "Y2 line 3"),
    (3, 3, ["$var reg 8 ! v_x\xe9 $end"], "Y2 line 3"),
    (3, 3, ["$var reg 8 ! clk $end"], "Y2 line 3"),
    (3, 3, ["$var reg 8 ! i $end"], "Y2 line 3"),
    (3, 3, ["$var reg 8 ! posedge $end"], "Y2 line 3"),
    (3, 3, ["$var reg 8 ! begin $end"], NONE),
    (3, 3, ["$var reg 8 ! _ $end"], NONE),
    (3, 3, [f"$var reg 8 ! {'v' * 1_000_000} $end"], NONE),
    (3, 3, [], "Y2 line 3"),
    (4, 4, ["$var reg 1 ! v_x $end"], "Y2 line 4"),
    (5, 5, ["$var reg 8 # v_x $end"], "Y2 line 5"),
    (6, 6, ["$var reg 1 $ v_x $end"], "Y2 line 6"),
    (6, 6, ["$var reg 1 $ t_y $end", "$var reg 1 % t_z $end"], "Y5 line 15"),
    (6, 6, [], "Y3 line 12"),
    (3, 6, [], "Y3 line 6"),
    (7, 7, [], "Y1 line 7"),
    (7, 8, ["$enddefinitions $end", "$upscope $end"], "Y1 line 7"),
    (7, 7, ["$upscope  $end"], "Y1 line 7"),
    (7, 19, [], "Y1 line 7"),
    (8, 8, [], "Y1 line 8"),
    (8, 8, ["$enddefinitions $end\r"], "Y1 line 8"),
    (8, 19, [], "Y1 line 8"),
    (8, 8, ["$enddefinitions $end", "$dumpvars"], "Y1 line 9"),
    # the beginning of a block
    (9, 9, [], "Y1 line 9"),
    (9, 19, [], "Y1 line 9"),
    (9, 9, ["#"], "Y1 line 9"),
    (9, 9, ["# 0"], "Y1 line 9"),
    (9, 9, ["#0 "], "Y1 line 9"),
    (9, 9, ["#0\r"], "Y1 line 9"),
    (9, 9, ["#-0"], "Y1 line 9"),
    (9, 9, ["#00"], "Y1 line 9"),
    (9, 9, ["#1"], "Y4 line 9"),
    (9, 9, ["#18446744073709551616"], "Y4 line 9"),
    (9, 9, ["#" + LARGE], "Y4 line 9"),
    (14, 14, [], "Y3 line 14"),
    (14, 14, ["#2"], "Y4 line 14"),
    (14, 14, ["#0"], "Y4 line 14"),
    (14, 14, ["#01"], "Y1 line 14"),
    (14, 14, ["#1a"], "Y1 line 14"),
    (14, 14, ["#4294967297"], "Y4 line 14"),
    (14, 14, ["#18446744073709551617"], "Y4 line 14"),
    (14, 14, ["#1", "#1"], "Y4 line 15"),
    (17, 17, [], "Y3 line 17"),
    (17, 17, ["#1"], "Y4 line 17"),
    (17, 17, ["#3"], "Y4 line 17"),
    (17, 17, ["#" + LARGE], "Y4 line 17"),
    # changes of block 0
    (10, 10, ["b00000002 !"], "Y1 line 10"),
    (10, 10, ["b0000000x !"], "Y1 line 10"),
    (10, 10, ["B00000001 !"], "Y1 line 10"),
    (10, 10, ["00000001 !"], "Y1 line 10"),
    (10, 10, ["b !"], "Y1 line 10"),
    (10, 10, ["b00000001"], "Y1 line 10"),
    (10, 10, ["b00000001 "], "Y1 line 10"),
    (10, 10, ["b00000001!"], "Y1 line 10"),
    (10, 10, ["b00000001  !"], "Y1 line 10"),
    (10, 10, ["b00000001 ! "], "Y1 line 10"),
    (10, 10, ["b00000001\t!"], "Y1 line 10"),
    (10, 10, ["b00000001 !\r"], "Y1 line 10"),
    (10, 10, ["b00000001 \x7f"], "Y1 line 10"),
    (10, 10, ["b00000001 !\x00"], "Y1 line 10"),
    (10, 10, [""], "Y1 line 10"),
    (10, 10, ["$end"], "Y1 line 10"),
    (11, 11, ['0"'], "Y1 line 11"),
    (11, 11, ['r0 "'], "Y1 line 11"),
    (10, 10, ["b1 !"], "Y3 line 10"),
    (10, 10, ["b000000001 !"], "Y3 line 10"),
    (10, 10, [f"b{'0' * 1_000_000} !"], "Y3 line 10"),
    (10, 10, ["b00000001 %"], "Y3 line 10"),
    (10, 10, ["b00000001 !!"], "Y3 line 10"),
    (10, 10, ["b00000001 " + "!" * 1_000_000], "Y3 line 10"),
    (10, 10, ['b00000001 ! "'], "Y1 line 10"),
    (10, 11, ['b0 "', "b00000001 !"], "Y3 line 11"),
    (11, 11, ['b0 "', 'b0 "'], "Y3 line 12"),
    (13, 13, ["b0 $", "b0 $"], "Y3 line 14"),
    (10, 10, [], "Y5 line 13"),
    (12, 12, [], "Y5 line 13"),
    (13, 13, [], "Y5 line 13"),
    (13, 14, ["#2"], "Y4 line 13"),
    (13, 19, [], "Y5 line 13"),
    (10, 19, [], "Y5 line 10"),
    (14, 19, [], NONE),
    # changes of later blocks
    (15, 15, ["b00000001 !"], "Y5 line 15"),
    (15, 15, ["b00000011 !"], NONE),
    (15, 15, ["b0000001 !"], "Y3 line 15"),
    (15, 15, ["b00000010 ! #"], "Y1 line 15"),
    (15, 15, ["b00000010 !", 'b1 "'], NONE),
    (15, 15, ["b00000010 !", 'b0 "'], "Y5 line 16"),
    (15, 16, ["b00000001 #", "b00000010 !"], "Y3 line 16"),
    (15, 16, ["b00000001 #", "b00000001 !"], "Y3 line 16"),
    (15, 15, [], "Y5 line 17"),
    (15, 16, [], "Y5 line 16"),
    (16, 16, ["b00000010 #"], "Y5 line 16"),
    (16, 16, ["b00000001 #"] * 2, "Y3 line 17"),
    (16, 16, ["b00000001 #", "b0 $"], "Y5 line 17"),
    (16, 16, ["b00000001 #", "b1 $"], NONE),
    (16, 16, ["b00000001 %"], "Y3 line 16"),
    (16, 16, ["b00000001 ##"], "Y3 line 16"),
    (16, 16, ["b00000001 !#"], "Y3 line 16"),
    (18, 19, [], NONE),
    (19, 19, [], NONE),
    (19, 19, ["b00000001 #"], "Y5 line 19"),
    (19, 19, ["b00000010 #", ""], "Y1 line 20"),
    (19, 19, ["b00000010 #", "#3"], NONE),
    (19, 19, ["b00000010 #", "#3", "#4"], NONE),
    (19, 19, ["b00000010 #", "#4"], "Y4 line 20"),
    (19, 19, ["b00000010 #", "#3", "b0 $"], "Y5 line 21"),
)
# Whole texts.
TEXTS = (
    ("", "Y1 line 1"),
    ("\n", "Y1 line 1"),
    ("\r\n", "Y1 line 1"),
    (LARGE, "Y1 line 1"),
    ("$timescale 1ns $end", "Y1 line 1"),
    ("$timescale 1ns $end\n", "Y1 line 2"),
    (DUMP[:-1], "Y1 line 19"),
    (DUMP[:-2], "Y1 line 19"),
    (DUMP + "#3", "Y1 line 20"),
    (DUMP + "#5", "Y1 line 20"),
    (DUMP + " ", "Y1 line 20"),
    (DUMP.replace("\n", "\r\n"), "Y1 line 1"),
    (DUMP.replace("\n", "\r"), "Y1 line 1"),
    (DUMP.replace(" ", "\t"), "Y1 line 1"),
    ("\n" + DUMP, "Y1 line 1"),
    (DUMP + DUMP, "Y1 line 20"),
    (BARE_DUMP, NONE),
    (BARE_DUMP.replace("#1\n", ""), NONE),
    (BARE_DUMP.replace("#1\n", "#2\n"), "Y4 line 6"),
    (BARE_DUMP + "b0 !\n", "Y3 line 7"),
)


def exchanged(first, last, inside):
    lines = DUMP.split("\n")
    return "\n".join([*lines[: first - 1], *inside, *lines[last:]])


def damaged():
    """Each text with its first fault."""
    yield from ((exchanged(first, last, inside), fault) for first, last, inside, fault in EXCHANGED)
    yield from TEXTS


def wave_of_random_run(seed):
    draw = random.Random(seed)
    lattice = lattice_of(random_lattice(draw)[1])
    module = module_of(random_module(draw, lattice))
    return wave_of_run(module, random_stimulus(draw, module, lattice), lattice)


def fault_of(text):
    try:
        wave_of(text)
    except WaveFault as fault:
        return str(fault)
    return NONE


def wrong():
    """What the model says otherwise than it was worked out."""
    lattice = lattice_of(LATTICE)
    if dump_of(wave_of_run(module_of(MODULE), "\n\n", lattice)) != DUMP:
        yield "the dump of the module"
    if rows_of(wave_of(DUMP), lattice) != ROWS:
        yield "the rows of its dump"
    if dump_of(wave_of_run(module_of(BARE), "1\n", lattice)) != BARE_DUMP:
        yield "the dump of a module without registers"
    yield from (f"the ID of {number}: {id_of(number)}" for number, wanted in IDS if id_of(number) != wanted)
    waves = [wave_of_random_run(seed) for seed in range(MODULES)]
    yield from (f"the dump of module {seed} doesn't read back" for seed, wave in enumerate(waves) if wave_of(dump_of(wave)) != wave)
    for count, (text, wanted) in enumerate(damaged(), 1):
        if fault_of(text) != wanted:
            yield f"damaged dump {count}: {fault_of(text)} in place of {wanted}; it begins with {text[:60]!r}"


def main():
    found = list(wrong())
    for what in found:
        print(what)
    print(f"dumps by the model: {len(EXCHANGED) + len(TEXTS)} damaged ones, {len(IDS)} IDs, {MODULES} of modules drawn at random; {len(found) or 'none'} wrong")
    return bool(found)


if __name__ == "__main__":
    sys.exit(main())
