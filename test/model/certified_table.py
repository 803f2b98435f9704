"""Modules that are damaged by hand, each so that it is known which questions find it at a level. Usage: python3 -m model.certified_table PROGRAM TOP"""

import os
import re
import shutil
import sys
import tempfile
from typing import NamedTuple

from certifying import Certifying, Subject
from gates import FLOWS
from solvers import SMT_SOLVERS

from .certified import NAMES, compiled, put
from .lattice import text_of
from .random_lattices import chain, diamond, two


class Row(NamedTuple):
    """What it shows; an example's name, or a lattice and a design; the edit; a level; the questions that aren't answered as wanted."""

    shows: str
    design: object
    old: str
    new: str
    level: str
    wanted: set


RETAGGED = text_of(*diamond()), """input s : 1;
reg z : 8 enforced a;
state S enforced low { z := 1; goto S; }
"""
THREE = text_of(*chain(3)), """reg x : 8 dynamic;
reg y : 8 enforced level2 under level2;
state S enforced level0 { x := 1; goto T; }
state T enforced level0 { x := 2; goto U; }
state U enforced level0 { x := 3; goto S; }
"""
FIXED = text_of(*two()), """input a : 8;
mem m : 8[2] dynamic;
reg x : 8 dynamic;
state S enforced low { m[0] := a; x := m[1]; goto S; }
"""
EDGE = "always @(posedge clk) "
ROWS = [
    Row("an input at high is written to a register at low", "handler", "t_a ? 8'd9 : v_a", "t_a ? v_a : 8'd9", "low", {"states"}),
    Row("at high all is seen", "handler", "t_a ? 8'd9 : v_a", "t_a ? v_a : 8'd9", "high", set()),
    Row("whether a site is refused depends on an input at high", "handler", "assign c_1 = t_a;", "assign c_1 = v_a[0:0];", "low", {"refusals"}),
    Row("a refusal that nobody sees may depend on it", "handler", "assign c_1 = t_a;\nassign l_1 = 1'd0;",
        "assign c_1 = v_a[0:0];\nassign l_1 = 1'd1;", "low", set()),
    Row("the level of a refusal depends on it", "handler", "assign l_1 = 1'd0;", "assign l_1 = v_a[0:0];", "low", {"refusals"}),
    Row("a site that is never refused tells nothing", "handler", "assign c_1 = t_a;", "assign c_1 = 1'd0;", "low", set()),
    Row("a write to a dynamic memory doesn't raise its tag", "memory", f"{EDGE}t_m <= n#;", f"{EDGE}t_m <= t_m;", "low", {"states"}),
    Row("a refused write to an enforced memory is done", "memory", f"{EDGE}if (n#) v_k[v_a]", f"{EDGE}if (1'd1) v_k[v_a]", "low", {"states"}),
    Row("a memory that is only written at a fixed place, undamaged", FIXED, "endmodule", "endmodule", "low", set()),
    Row("the same, and a write doesn't raise its tag", FIXED, f"{EDGE}t_m <= n#;", f"{EDGE}t_m <= t_m;", "low", {"states"}),
    Row("which state is current depends on a secret, and its tag is low", "modes", f"{EDGE}t_Off <= n#;", f"{EDGE}t_Off <= 1'd0;", "low", {"states"}),
    Row("a tag that is retagged in sight depends on a secret", RETAGGED, f"{EDGE}t_z <= 2'd2;",
        f"wire [1:0] n900;\nassign n900 = v_s ? 2'd2 : 2'd1;\n{EDGE}t_z <= n900;", "low", {"states"}),
    Row("a tag that is no code", THREE, f"{EDGE}t_x <= 2'd0;", f"{EDGE}t_x <= 2'd2;", "level0", {"kept"}),
    Row("a tag below its authority", THREE, f"{EDGE}t_y <= 2'd3;", f"{EDGE}t_y <= 2'd1;", "level0", {"kept"}),
    Row("a current child that is none", THREE, f"{EDGE}s_0 <= n#;", f"{EDGE}s_0 <= 2'd3;", "level0", {"kept"}),
    Row("a register that doesn't start as the design says", THREE, "initial v_x = 8'd0;", "initial v_x = 8'd4;", "level0", {"first"}),
    Row("a tag that always has a number that is no code", THREE, f"initial t_y = 2'd3;", "initial t_y = 2'd2;", "level0", {"first"}),
    Row("the same, and it keeps that number", THREE, f"{EDGE}t_y <= 2'd3;", f"{EDGE}t_y <= t_y;", "level0", set()),
]
# Netlists of `handler` as they come where synthesis takes another text for the module's.
GATES = [
    Row("the netlist of the module", "handler", "endmodule", "endmodule", "low", set()),
    Row("one that writes an input at high", "handler", "t_a ? 8'd9 : v_a", "t_a ? v_a : 8'd9", "low", {"gates and text", "states"}),
    Row("one that writes another number", "handler", "t_a ? 8'd9 : v_a", "t_a ? 8'd8 : v_a", "low", {"gates and text"}),
    Row("one that starts with another number", "handler", "initial v_y = 8'd7;", "initial v_y = 8'd6;", "low", {"gates start"}),
]


def files_of(row, top, folder):
    """The files of the lattice, the design and the module."""
    if isinstance(row.design, str):
        return [f"{top}/examples/language/lattice.toml", f"{top}/examples/language/{row.design}.sapper", os.path.join(folder, NAMES[2])]
    return [put(folder, NAMES[0], row.design[0]), put(folder, NAMES[1], row.design[1]), os.path.join(folder, NAMES[2])]


def wrong_with(row, program, top, folder, flow, solver):
    """What is otherwise than the row says: of the damaged text, or of the netlist that a synthesis makes of it in place of the module."""
    files = files_of(row, top, folder)
    if not compiled(program, *files):
        return "not compiled"
    with open(files[2], encoding="ascii") as file:
        text = file.read()
    # A helping wire has any number: `n#` in the row.
    found = re.findall(re.escape(row.old).replace(re.escape("n#"), r"n\d+"), text)
    if len(found) != 1:
        return f"{row.old!r} isn't in the module once"
    damaged = put(folder, "damaged.v", text.replace(found[0], row.new))
    lines = []
    certifying = Certifying(Subject(*files[:2], files[2] if flow else damaged), solver, tell=lines.append)
    levels = [certifying.subject.lattice.number[row.level]]
    if flow:
        certifying.subject.module_file = damaged
        certifying.gates(levels, flow)
    else:
        certifying.text(levels)
    told = "\n".join(lines)
    if set(certifying.failed) != row.wanted:
        return f"{sorted(set(certifying.failed))} where {sorted(row.wanted)} is wanted\n{told}"
    if not flow and any(not against for _, _, against in certifying.found):
        return f"the pair isn't confirmed\n{told}"
    return None


def main():
    program, top = sys.argv[1:]
    arrays = [name for name in SMT_SOLVERS if shutil.which(name) and shutil.which("yosys-smtbmc")][:1]
    cases = [(row, None, None) for row in ROWS]
    cases += [(row, flow, None) for row in GATES for flow in FLOWS]
    cases += [(row, None, solver) for row in ROWS if row.design in ("memory", FIXED) for solver in arrays]
    wrong = 0
    with tempfile.TemporaryDirectory() as folder:
        for row, flow, solver in cases:
            found = wrong_with(row, program, top, folder, flow, solver)
            if found:
                wrong += 1
                print(f"{row.shows}{f', {flow or solver}' if flow or solver else ''}: {found}")
    by = f"by {arrays[0]} too" if arrays else "by sat alone"
    print(f"{len(ROWS)} modules and {len(GATES) * len(FLOWS)} netlists worked out by hand, those with memories {by}: "
          f"{'each' if not wrong else f'{len(cases) - wrong} of {len(cases)}'} answered as it is to be")
    return bool(wrong)


if __name__ == "__main__":
    sys.exit(main())
