"""The model of linked designs on what was worked out by hand: systems with their first fault, of the system or of a part, and rows and ports of systems.

Usage: python3 -m model.link_table
"""

import json
import sys
from typing import NamedTuple

from .lattice import lattice_of
from .links import DesignFiles, PartFault, SystemFault, linked_of, rows_and_trace
from .tokens import KEYWORDS

LATTICE = 'levels = ["low", "high"]\nbelow = [["low", "high"]]\n'
DIAMOND = 'levels = ["low", "a", "b", "high"]\nbelow = [["low", "a"], ["low", "b"], ["a", "high"], ["b", "high"]]\n'


def one_state(*declarations, body=""):
    return "".join(f"{line}\n" for line in declarations) + f"state S enforced low {{ {body} goto S; }}\n"


def padded(text, size):
    """The text behind a comment, so many bytes in all."""
    return "//" + " " * (size - len(text) - 3) + "\n" + text


# The most bytes of a design file.
MOST_BYTES = 1 << 20
ADDS = one_state("input a : 8;", "reg x : 8 dynamic;", body="x := a + 1;")
TAKES = one_state("input b : 8;", "reg y : 8 dynamic;", body="y := b;")
FILES = {
    "adds.sapper": ADDS,
    "takes.sapper": TAKES,
    "wide.sapper": one_state("input c : 16;", "reg z : 16 dynamic;", "mem m : 16[4] dynamic;", body="z := c;"),
    "second.sapper": "sapper 2;\n" + one_state("input a : 8;", "reg x : 8 dynamic;", body="case (a) { 0: { x := 1; } else { x := a; } }"),
    "keeps.sapper": one_state("input a : 8;", "reg x : 8 enforced low = 7;", body="x := a;"),
    "keeps_high.sapper": one_state("input a : 8;", "reg x : 8 enforced high = 7;", body="x := a;"),
    "starts_at_1.sapper": one_state("input a : 8;", "reg x : 8 dynamic = 1;", body="x := a;"),
    "starts_at_2.sapper": one_state("input a : 8;", "reg x : 8 dynamic = 2;", body="x := a;"),
    "counts.sapper": one_state("input a : 8;", "reg x : 8 dynamic = 254;", body="x := a + 1;"),
    "sink.sapper": one_state("input a : 8;", "input b : 8;", "reg x : 8 dynamic;", "reg y : 8 dynamic;", body="x := a; y := b;"),
    "long_names.sapper": one_state(f"input {'a' * 40} : 1;", f"reg {'x' * 40} : 1 dynamic;", body=f"{'x' * 40} := ~{'a' * 40};"),
    "bare.sapper": "state S enforced low { goto S; }\n",
    "-dash.sapper": ADDS,
    "most.sapper": padded(ADDS, MOST_BYTES),
    "unread.sapper": "input a : 8\nreg x : 8 dynamic;\n",
    "narrow.sapper": one_state("input a : 8;", "reg x : 7 dynamic;", body="x := a;"),
    "open.sapper": "reg x : 8 dynamic;\nstate S enforced low {\n  x := 1;\n}\n",
    # refused by a limit, of which the model knows nothing
    "inputs.sapper": "".join(f"input i{number} : 8;\n" for number in range(65)) + "state S enforced low { goto S; }\n",
    "large.sapper": padded(ADDS, MOST_BYTES + 1),
}
BY_LIMIT = {"inputs.sapper": "E18 65:1 inputs", "large.sapper": "E18 1:1 bytes"}

# Systems.


def system(parts, wires=()):
    """A system file of names with files and of wires."""
    return f"parts = {json.dumps([list(part) for part in parts])}\nwires = {json.dumps([list(wire) for wire in wires])}\n"


def parts_of(*names):
    return [(name, "adds.sapper") for name in names]


TWO = (("p", "adds.sapper"), ("q", "takes.sapper"))
MANY = [f"p{number}" for number in range(1, 10)]
FORTY = "a" * 40


class Refused(NamedTuple):
    """A system, and its status and line."""

    text: str
    status: int
    line: str


def of_system(text, fault):
    return Refused(text, 9, f"system: {fault}")


def wires(*rows, parts=TWO):
    return system(parts, rows)


# A byte that is no UTF-8 stands in a text as a surrogate.
NO_TOML = (
    "parts = [",
    "what",
    "= 1\n",
    "\0",
    "parts = []\nwires = [],\n",
    "parts = []\nparts = []\nwires = []\n",
    'parts = [["p", "adds.sapper]]\nwires = []\n',
    'parts = [["p", "adds.sapper"]\nwires = []\n',
    'parts = [["p" "adds.sapper"]]\nwires = []\n',
    'parts = [["p\udcff", "adds.sapper"]]\nwires = []\n',
    '# \udcff\nparts = [["p", "adds.sapper"]]\nwires = []\n',
)
OTHER_SHAPES = (
    "",
    "# nothing\n",
    "parts = []\n",
    "wires = []\n",
    "Parts = []\nwires = []\n",
    "parts = []\nwires = []\nmore = 1\n",
    "parts = []\nwires = []\n[more]\n",
    "[system]\nparts = []\nwires = []\n",
    'levels = ["low", "high"]\nbelow = [["low", "high"]]\n',
    'parts = "p"\nwires = []\n',
    "parts = 1\nwires = []\n",
    'parts = { p = "adds.sapper" }\nwires = []\n',
    '[parts]\np = "adds.sapper"\n',
    'parts = ["p", "adds.sapper"]\nwires = []\n',
    "parts = [[]]\nwires = []\n",
    'parts = [["p"]]\nwires = []\n',
    'parts = [["p", "adds.sapper", "more"]]\nwires = []\n',
    'parts = [["p", 1]]\nwires = []\n',
    'parts = [[1, "adds.sapper"]]\nwires = []\n',
    'parts = [["p", ["adds.sapper"]]]\nwires = []\n',
    'parts = [["p", "adds.sapper"], "q"]\nwires = []\n',
    'parts = [["p", "adds.sapper"], ["q"]]\nwires = []\n',
    'parts = [["p", "adds.sapper"]]\nwires = ""\n',
    'parts = [["p", "adds.sapper"]]\nwires = {}\n',
    'parts = [["p", "adds.sapper"]]\nwires = ["p.x", "p.a"]\n',
    'parts = [["p", "adds.sapper"]]\nwires = [[]]\n',
    'parts = [["p", "adds.sapper"]]\nwires = [["p.x"]]\n',
    'parts = [["p", "adds.sapper"]]\nwires = [["p.x", "p.a", "low", "low"]]\n',
    'parts = [["p", "adds.sapper"]]\nwires = [["p.x", "p.a", 1]]\n',
    'parts = [["p", "adds.sapper"]]\nwires = [["p.x", true]]\n',
    'parts = [["p", "adds.sapper"]]\nwires = [["p.x", "p.a"], ["p.x", ["p.a"]]]\n',
    # before K3 and K4
    "parts = []\nwires = 1\n",
    'parts = [["_", "adds.sapper"]]\nwires = 1\n',
)
NO_NAMES = (
    *("", " ", "_", "a_b", "a_", "_a", "1", "1p", "p-", "p q", " p", "p ", "p.q", "p\n", "\tp", "p;", "$p", "p\0"),
    *("\u00fc", "p\u00fc", "\u0661", "p\u0661", "\uff50", FORTY + "a", "a" * 1000),
    *sorted(KEYWORDS),
)
NAMES = ("a", "Z", "p9", "then", "case", "module", "clk", "top", "i", "v", "If", "low", "S", "x", FORTY)

# What a wire from p.x to q.b may say in the place of each string.
NO_REGISTERS = (
    *("", ".", "p", "x", "px", "p.", ".x", "p.a", "p.S", "p.y", "q.x", "q.b", "r.x", "P.x", "p.X", "p.x.x", "p..x", ".p.x", "p.x."),
    *("p.x ", " p.x", "p .x", "p. x", "p_x", "v_p_x", "p:x", "p.0", "p.v_x", "p.t_x", "p\u00fc.x", "adds.sapper.x"),
)
NO_INPUTS = ("", ".", "q", "b", "q.", ".b", "q.y", "q.S", "q.a", "p.b", "p.x", "r.b", "Q.b", "q.B", "q.b.b", "q.b ", " q.b", "q_b", "v_q_b", "clk", "q.clk")
NO_LEVELS = ("", "LOW", "low ", " low", "mid", "top", "0", "low.high", "l\u00f6w")
WIRE = ("p.x", "q.b")


def refused_before_a_part():
    yield from (of_system(text, "K1") for text in NO_TOML)
    yield from (of_system(text, "K2") for text in OTHER_SHAPES)
    yield of_system(system(()), "K3 0")
    yield of_system(system((), [["", ""]]), "K3 0")
    yield of_system(system(parts_of(*MANY)), "K3 9")
    yield of_system(system(parts_of(*["_"] * 9)), "K3 9")
    yield of_system(system(parts_of(*["p"] * 100)), "K3 100")
    yield from (of_system(system(parts_of(name)), "K4 1") for name in NO_NAMES)
    yield from (of_system(system(parts_of("p", name, "q")), "K4 2") for name in NO_NAMES)
    yield of_system(system(parts_of(*MANY[:7], "_")), "K4 8")
    yield of_system(system(parts_of("p", "p")), "K4 2")
    yield of_system(system(parts_of("p", "q", "p")), "K4 3")
    yield of_system(system(parts_of("p", "p", "_")), "K4 2")
    yield of_system(system(parts_of("p", "_", "p")), "K4 2")
    yield of_system(system(parts_of("_", "_")), "K4 1")
    # before a part's file, and before a wire
    yield of_system(system([("p", "missing.sapper"), ("p", "unread.sapper")], [["", ""]]), "K4 2")
    yield of_system(system([("p", ""), ("_", "")]), "K4 2")


def refused_at_a_part():
    for file, fault in (("unread.sapper", "E2 2:1"), ("narrow.sapper", "E7 3:29"), ("open.sapper", "E10 4:1"), *BY_LIMIT.items()):
        yield Refused(system([("p", file)]), 1, f"part p: {fault}")
        yield Refused(system([("p", "adds.sapper"), (FORTY, file)]), 1, f"part {FORTY}: {fault}")
        yield Refused(system([("p", file), ("q", file)]), 1, f"part p: {fault}")
        yield Refused(system([("p", file), ("q", "missing.sapper")]), 1, f"part p: {fault}")
        yield Refused(system([("p", "missing.sapper"), ("q", file)]), 6, "desk: missing.sapper")
        # before a wire
        yield Refused(system([("p", "adds.sapper"), ("q", file)], [["", ""]]), 1, f"part q: {fault}")
    yield Refused(system([("p", "missing.sapper")]), 6, "desk: missing.sapper")
    yield Refused(system([("p", "")]), 6, "desk: ")
    yield Refused(system([("p", "adds.sapper"), ("q", "")], [["", ""]]), 6, "desk: ")
    yield Refused(system([(name, "adds.sapper") for name in MANY[:7]] + [("q", "missing.sapper")]), 6, "desk: missing.sapper")


def refused_at_a_wire():
    yield from (of_system(wires((text, "q.b")), "K5 1") for text in NO_REGISTERS)
    yield from (of_system(wires(("p.x", text)), "K6 1") for text in NO_INPUTS)
    yield from (of_system(wires((*WIRE, text)), "K9 1") for text in NO_LEVELS)
    yield of_system(wires(WIRE, WIRE), "K7 2")
    yield of_system(wires((*WIRE, "low"), WIRE), "K7 2")
    yield of_system(wires(WIRE, ("q.y", "p.a"), (*WIRE, "high")), "K7 3")
    yield of_system(wires(WIRE, ("q.y", "q.b")), "K7 2")
    wide = (*TWO, ("r", "wide.sapper"))
    yield of_system(wires(("r.z", "q.b"), parts=wide), "K8 1")
    yield of_system(wires(("p.x", "r.c"), parts=wide), "K8 1")
    yield of_system(wires(WIRE, ("r.z", "r.c"), ("q.y", "r.c"), parts=wide), "K7 3")
    yield of_system(wires(("r.m", "r.c"), parts=wide), "K5 1")
    # of one wire the first code
    yield of_system(wires(("p.a", "q.y", "mid")), "K5 1")
    yield of_system(wires(("p.x", "q.y", "mid")), "K6 1")
    yield of_system(wires(WIRE, ("r.z", "q.b", "mid"), parts=wide), "K7 2")
    yield of_system(wires(WIRE, ("r.y", "q.b"), parts=wide), "K5 2")
    yield of_system(wires(("r.z", "q.b", "mid"), parts=wide), "K8 1")
    # of several wires the first
    yield of_system(wires((*WIRE, "mid"), ("", "")), "K9 1")
    yield of_system(wires(("q.y", "p.a"), (*WIRE, "mid"), WIRE, ("", "")), "K9 2")
    yield of_system(wires(("r.z", "q.b"), WIRE, parts=wide), "K8 1")


def refused():
    yield from refused_before_a_part()
    yield from refused_at_a_part()
    yield from refused_at_a_wire()


def linked():
    """Systems without a fault."""
    yield from (system(parts_of(name)) for name in NAMES)
    yield from (system(parts_of("p", name)) for name in NAMES)
    yield system(parts_of("p", "P"))
    yield system(parts_of(*MANY[:8]))
    yield system([("p", "-dash.sapper"), ("q", "./takes.sapper"), ("r", "bare.sapper")])
    yield system([("p", "bare.sapper")])
    yield system([("p", "most.sapper"), ("q", "most.sapper")], [["q.x", "p.a"]])
    yield system([("p", "adds.sapper"), ("q", "second.sapper")], [["p.x", "q.a"], ["q.x", "p.a", "high"]])
    yield system([("p", "second.sapper"), ("then", "adds.sapper")], [["p.x", "then.a"]])
    yield "# a comment\nwires = [[ 'p.x', \"\"\"q.b\"\"\" ], ]\nparts = [\n  ['p', \"adds.sapper\"], # another\n  [\"q\", \"\\u0074akes.sapper\"],\n]\n"
    yield 'parts = [["p", "adds.sapper"]]\r\n"wires" = []\r\n'


# Runs.


class Linking(NamedTuple):
    """A system over a lattice, a stimulus, its rows, and the names of its ports where they are told."""

    lattice: str
    parts: tuple
    wires: tuple
    stimulus: str
    rows: str
    ports: str = ""


THREE = "5@high\n1@low\n0@low\n"
OF_EACH_LEVEL = "1@low\n2@a\n3@b\n4@high\n5@low\n0@low\n"


def rows_of_registers(*lines):
    return "".join(f"cycle {number}: {line}\n" for number, line in enumerate(lines, 1))


def passed_at(level, *numbers):
    """Rows of a register p.x that takes what comes at each level, and of q.y behind a level wire: its numbers."""
    taken = ("2@low", "3@a", "4@b", "5@high", "6@low", "1@low")
    return rows_of_registers(*(f"p_x={one} q_y={number}@{level}" for one, number in zip(taken, numbers)))


EXCHANGE = (("p", "starts_at_1.sapper"), ("q", "starts_at_2.sapper"))
COUNTER = (("p", "counts.sapper"),)
KEEPS = (("p", "adds.sapper"), ("q", "keeps.sapper"))
KEEPS_HIGH = (("p", "keeps_high.sapper"), ("q", "takes.sapper"))
ROW = MANY[:8]

RUNS = (
    Linking(
        LATTICE, TWO, (WIRE,), THREE,
        rows_of_registers("p_x=6@high q_y=0@low", "p_x=2@low q_y=6@high", "p_x=1@low q_y=2@low"),
        "v_p_a t_p_a v_p_x t_p_x v_q_y t_q_y c_p_1 l_p_1 c_q_1 l_q_1",
    ),
    Linking(LATTICE, TWO, ((*WIRE, "low"),), THREE, rows_of_registers("p_x=6@high q_y=0@low", "p_x=2@low q_y=0@low", "p_x=1@low q_y=2@low")),
    Linking(LATTICE, TWO, ((*WIRE, "high"),), THREE, rows_of_registers("p_x=6@high q_y=0@high", "p_x=2@low q_y=6@high", "p_x=1@low q_y=2@high")),
    # without a wire, parts in order of the file
    Linking(
        LATTICE, TWO, (), "5@high 1@low\n1@low 2@high\n",
        rows_of_registers("p_x=6@high q_y=1@low", "p_x=2@low q_y=2@high"),
        "v_p_a t_p_a v_q_b t_q_b v_p_x t_p_x v_q_y t_q_y c_p_1 l_p_1 c_q_1 l_q_1",
    ),
    Linking(
        LATTICE, TWO[::-1], (), "1@low 5@high\n2@high 1@low\n",
        rows_of_registers("q_y=1@low p_x=6@high", "q_y=2@high p_x=2@low"),
        "v_q_b t_q_b v_p_a t_p_a v_q_y t_q_y v_p_x t_p_x c_q_1 l_q_1 c_p_1 l_p_1",
    ),
    # the part that is fed stands before the one that feeds it
    Linking(LATTICE, TWO[::-1], (WIRE,), THREE, rows_of_registers("q_y=0@low p_x=6@high", "q_y=6@high p_x=2@low", "q_y=2@low p_x=1@low")),
    # two parts exchange
    Linking(
        LATTICE, EXCHANGE, (("p.x", "q.a"), ("q.x", "p.a")), "\n\n\n",
        rows_of_registers("p_x=2@low q_x=1@low", "p_x=1@low q_x=2@low", "p_x=2@low q_x=1@low"),
        "v_p_x t_p_x v_q_x t_q_x c_p_1 l_p_1 c_q_1 l_q_1",
    ),
    Linking(
        LATTICE, EXCHANGE, (("p.x", "q.a", "high"), ("q.x", "p.a", "low")), "*4\n",
        rows_of_registers("p_x=2@low q_x=1@high", "p_x=0@low q_x=2@high", "p_x=0@low q_x=0@high", "p_x=0@low q_x=0@high"),
    ),
    # a part feeds itself
    Linking(LATTICE, COUNTER, (("p.x", "p.a"),), "\n\n\n", rows_of_registers("p_x=255@low", "p_x=0@low", "p_x=1@low"), "v_p_x t_p_x c_p_1 l_p_1"),
    Linking(LATTICE, COUNTER, (("p.x", "p.a", "high"),), "\n\n", rows_of_registers("p_x=255@high", "p_x=0@high")),
    # one register feeds many inputs, and one file serves two parts; r.b is fed, r.a isn't
    Linking(
        LATTICE, (("p", "adds.sapper"), ("q", "adds.sapper"), ("r", "sink.sapper")), (("p.x", "q.a"), ("p.x", "r.b", "low")),
        "5@high 1@low\n1@low 2@high\n0@low 3@low\n",
        rows_of_registers(
            "p_x=6@high q_x=1@low r_x=1@low r_y=0@low", "p_x=2@low q_x=7@high r_x=2@high r_y=0@low", "p_x=1@low q_x=3@low r_x=3@low r_y=2@low"
        ),
        "v_p_a t_p_a v_r_a t_r_a v_p_x t_p_x v_q_x t_q_x v_r_x t_r_x v_r_y t_r_y c_p_1 l_p_1 c_q_1 l_q_1 c_r_1 l_r_1",
    ),
    # what a part refuses, and what it takes behind a level wire: 7 is its start
    Linking(
        LATTICE, KEEPS, (("p.x", "q.a"),), THREE,
        rows_of_registers("p_x=6@high q_x=0@low", "p_x=2@low q_x=0@low", "p_x=1@low q_x=2@low"),
        "v_p_a t_p_a v_p_x t_p_x v_q_x t_q_x c_p_1 l_p_1 c_q_1 l_q_1 c_q_2 l_q_2",
    ),
    Linking(LATTICE, KEEPS, (("p.x", "q.a", "high"),), THREE, rows_of_registers("p_x=6@high q_x=7@low", "p_x=2@low q_x=7@low", "p_x=1@low q_x=7@low")),
    Linking(LATTICE, KEEPS, (("p.x", "q.a", "low"),), THREE, rows_of_registers("p_x=6@high q_x=0@low", "p_x=2@low q_x=0@low", "p_x=1@low q_x=2@low")),
    # names of 83 bytes
    Linking(
        LATTICE, ((FORTY, "long_names.sapper"),), (), "1@high\n0@low\n",
        rows_of_registers(f"{FORTY}_{'x' * 40}=0@high", f"{FORTY}_{'x' * 40}=1@low"),
        " ".join(f"{letter}_{FORTY}_{name * 40}" for name in "ax" for letter in "vt") + f" c_{FORTY}_1 l_{FORTY}_1",
    ),
    # no inputs, no registers
    Linking(LATTICE, (("p", "bare.sapper"),), (), "\n\n", "cycle 1:\ncycle 2:\n", "c_p_1 l_p_1"),
    # an enforced register is at its level from the start
    Linking(LATTICE, KEEPS_HIGH, (WIRE,), "1@low\n2@high\n", rows_of_registers("p_x=1@high q_y=7@high", "p_x=2@high q_y=1@high")),
    Linking(LATTICE, KEEPS_HIGH, ((*WIRE, "low"),), "1@low\n2@high\n", rows_of_registers("p_x=1@high q_y=0@low", "p_x=2@high q_y=0@low")),
    # each level of a wire where levels stand side by side
    Linking(DIAMOND, TWO, ((*WIRE, "low"),), OF_EACH_LEVEL, passed_at("low", 0, 2, 0, 0, 0, 6)),
    Linking(DIAMOND, TWO, ((*WIRE, "a"),), OF_EACH_LEVEL, passed_at("a", 0, 2, 3, 0, 0, 6)),
    Linking(DIAMOND, TWO, ((*WIRE, "b"),), OF_EACH_LEVEL, passed_at("b", 0, 2, 0, 4, 0, 6)),
    Linking(DIAMOND, TWO, ((*WIRE, "high"),), OF_EACH_LEVEL, passed_at("high", 0, 2, 3, 4, 5, 6)),
    # eight in a row: what comes in goes out eight cycles later
    Linking(
        LATTICE, tuple((name, "takes.sapper") for name in ROW), tuple((f"{one}.y", f"{other}.b") for one, other in zip(ROW, ROW[1:])), "9@high\n0@low *8\n",
        rows_of_registers(*(" ".join(f"{name}_y={'9@high' if cycle == place else '0@low'}" for place, name in enumerate(ROW)) for cycle in range(9))),
        " ".join(["v_p1_b t_p1_b"] + [f"v_{name}_y t_{name}_y" for name in ROW] + [f"c_{name}_1 l_{name}_1" for name in ROW]),
    ),
)


# The model on all of it.


def bytes_of(text):
    return text.encode("utf-8", "surrogateescape")


def files_over(lattice_text):
    """The design files, one of them by another name of it too."""
    return DesignFiles(FILES | {"./takes.sapper": TAKES}, lattice_of(lattice_text))


def said_of(text, files):
    """What the model says of a system: its status and line."""
    try:
        linked_of(bytes_of(text), files)
    except SystemFault as fault:
        return 9, f"system: {fault}"
    except PartFault as fault:
        return 1, str(fault)
    except FileNotFoundError as missing:
        return 6, f"desk: {missing}"
    return 0, ""


def is_by_limit(one):
    return any(one.line.endswith(fault) for fault in BY_LIMIT.values())


def linked_in(one):
    return linked_of(bytes_of(system(one.parts, one.wires)), files_over(one.lattice))


def wrong():
    """What the model says otherwise than it was worked out."""
    files = files_over(LATTICE)
    for one in refused():
        said = said_of(one.text, files)
        if said != one[1:] and not is_by_limit(one):
            yield f"system {one.text!r}: {said} in place of {one[1:]}"
    for text in linked():
        if said_of(text, files) != (0, ""):
            yield f"system {text!r}: {said_of(text, files)} in place of no fault"
    for number, one in enumerate(RUNS, 1):
        system_in = linked_in(one)
        rows, _ = rows_and_trace(system_in, one.stimulus)
        if rows != one.rows:
            yield f"run {number}: {rows!r} in place of {one.rows!r}"
        if one.ports and [port.name for port in system_in.ports()] != one.ports.split(" "):
            yield f"run {number}: the ports {[port.name for port in system_in.ports()]}"


def main():
    found = list(wrong())
    for what in found:
        print(what)
    counts = len(list(refused())), len(list(linked())), len(RUNS)
    print("linked designs by the model: {} refused systems, {} others, {} runs; {} wrong".format(*counts, len(found) or "none"))
    return bool(found)


if __name__ == "__main__":
    sys.exit(main())
