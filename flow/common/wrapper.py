"""The text of a wrapper around a module."""
import os
import re

from .designs import is_dynamic
from .interface import Interface
from .modules import NAME, STEP, STORE, Module
from .program import Stop

# Names that a module of Verilog can't have here: keywords of IEEE 1364-2005 and IEEE 1800-2017 that a designer might try.
RESERVED = set("""always and assign automatic begin bind bit buf case cell checker class clocking config const cover default design disable do edge else end
endmodule enum event export extends final for force fork function generate genvar global if initial inout input instance int integer interface join large
let library local logic longint macromodule matches medium module nand negedge new none nor not null or output package parameter posedge primitive priority
program property protected pure rand real ref reg release repeat return scalared sequence shortint signed small solve specify static string strong strong0
strong1 struct super supply0 supply1 sync table task this time tri type typedef union unique unsigned use uwire var vectored virtual void wait wand weak
while wire with within wor xnor xor""".split())

# What Verilator warns of in wrappers: comparisons with a tag that is tied or that nothing writes; and with -Wall two modules in a file, outputs that no
# port shows, and registers that nothing reads.
QUIET = ("CMPCONST", "DECLFILENAME", "PINCONNECTEMPTY", "UNSIGNED", "UNUSED")


def cell_of(index):
    """The wire that has the number of a cell."""
    return "cell_" + index.replace("'d", "_")


def by_wire(found):
    """A write to a memory whose index is no number: of a number Yosys makes registers of the memory, with a warning."""
    condition, memory, index, value = found.groups()
    return f"always @(posedge clk) if ({condition}) {memory}[{cell_of(index)}] <= {value};" if "'" in index else found[0]


class Wrapper:
    """The text of NAME.v."""

    def __init__(self, asked):
        self.asked, self.name = asked, os.path.basename(asked.name)
        if not re.fullmatch(NAME, self.name) or self.name in RESERVED:
            raise Stop(f"{self.name} can't be the name of a module", 2)
        self.interface, self.given = Interface(asked.lattice, asked.design), Module(asked.module)
        self.interface.check(self.given)
        self.tags = f"[{self.interface.tag_width - 1}:0]"
        self.inputs, self.refusals = self.interface.inputs(self.given), self.interface.refusals
        self.tied = {name: self.level(level) for name, level in self.asked_ties()}
        self.kept = self.chosen(asked.keep)
        if asked.seen is not None:
            self.level(asked.seen)

    def level(self, name):
        if name not in self.interface.codes:
            raise Stop(f"{name} is no level: {', '.join(self.interface.codes)}", 2)
        return f"LEVEL_{name}"

    def asked_ties(self):
        """The inputs that are tied, each with its level."""
        seen = set()
        for words in self.asked.tie:
            name, _, level = words.partition("=")
            if name not in self.inputs:
                raise Stop(f"--tie {words}: {name} is no input: {', '.join(self.inputs)}", 2)
            if name in seen:
                raise Stop(f"--tie {words}: {name} is tied twice", 2)
            seen.add(name)
            yield name, level

    def chosen(self, names):
        for name in names or ():
            if name not in self.interface.registers:
                raise Stop(f"--keep {name}: no register: {', '.join(self.interface.registers)}", 2)
        return [name for name in self.interface.registers if names is None or name in names]

    def text(self):
        quiet = [f"/* verilator {words} */" for words in ("lint_save", *(f"lint_off {name}" for name in QUIET))]
        return "\n".join([*self.heading(), *quiet, *self.outside(), "", *self.core(), "/* verilator lint_restore */", ""])

    def heading(self):
        yield f"// Written by flow/wrap: {self.name}, around the module of {os.path.basename(self.asked.design)}."
        yield "// Drive each t_ input with the code of a level. No edge of clk before the inputs are known."
        if self.asked.reset:
            yield f"// rst is synchronous, and is seen at every level. {self.of_memories()}"
        if self.asked.enable:
            yield "// en is seen at every level. While it is 0 nothing changes, and nothing is refused."

    def of_memories(self):
        """What a reset does to memories."""
        if not self.written_memories():
            return "It resets all there is."
        return f"1 for {self.cells()} cycles, after a cycle of 0, it clears the memories too." if self.asked.clear else "It resets no memory."

    def written_memories(self):
        """The memories whose contents, or whose tags of cells, are written at all."""
        written = set(self.given.depths) - self.given.unwritten
        return {name: memory for name, memory in self.interface.memories.items() if written & {f"v_{name}", f"t_{name}"}}

    def tags_of_contents(self):
        """The tag registers of dynamic memories that are written: such a tag belongs to the contents."""
        return {f"t_{name}" for name, memory in self.written_memories().items() if is_dynamic(memory)}

    def cells(self):
        """How many cells the largest memory that is written has."""
        return max(memory.depth.value for memory in self.written_memories().values())

    # Around the module.

    def ports(self):
        """The direction, the range and the name of each port."""
        yield "input", "", "clk"
        for name, is_asked in (("rst", self.asked.reset), ("en", self.asked.enable)):
            if is_asked:
                yield "input", "", name
        for name, width in self.inputs.items():
            yield "input", f"[{width - 1}:0]", f"v_{name}"
            if name not in self.tied:
                yield "input", self.tags, f"t_{name}"
        for name in self.kept:
            yield "output", f"[{self.interface.registers[name] - 1}:0]", f"v_{name}"
            yield "output", self.tags, f"t_{name}"
        for refusal in self.refusals if self.asked.refusals == "all" else ():
            yield "output", "", refusal.name
            yield "output", self.tags, refusal.level_name
        if self.refusals and self.asked.refusals != "none":
            yield "output", "", "refused_any"

    def outside(self):
        yield f"module {self.name}("
        yield ",\n".join("  " + " ".join(filter(None, port)) for port in self.ports())
        yield ");"
        yield from self.levels()
        yield from self.wires()
        yield from self.instance()
        yield from self.shown()
        yield from self.assertions()
        yield "endmodule"

    def levels(self):
        yield "// The code of each level."
        for name, code in self.interface.codes.items():
            yield f"localparam {self.tags} LEVEL_{name} = {self.interface.tag_width}'d{code};"

    def wires(self):
        for refusal in self.refusals if self.asked.refusals != "none" else ():
            yield f"wire {refusal.wire};"
            yield f"wire {self.tags} {refusal.level};"
            if self.asked.refusals == "any":
                yield f"wire {refusal.name};"

    def instance(self):
        hidden = {f"{letter}_{name}" for name in self.interface.registers if name not in self.kept for letter in "vt"}
        if self.asked.refusals == "none":
            hidden |= {wire for refusal in self.refusals for wire in (refusal.wire, refusal.level)}
        tied = {f"t_{name}": level for name, level in self.tied.items()}
        pins = ["  .clk(clk)"] + [f"  .{control}({control})" for control in self.controls()]
        pins += [f"  .{port.name}({'' if port.name in hidden else tied.get(port.name, port.name)})" for port in self.given.ports]
        yield f"{self.name}_core core("
        yield ",\n".join(pins)
        yield ");"

    def controls(self):
        return [name for name, is_asked in (("rst", self.asked.reset), ("en", self.asked.enable)) if is_asked]

    def shown(self):
        """Each refusal, in cycles that happen and, if it is asked for, only as far as it is seen at a level."""
        if self.asked.refusals == "none":
            return
        for refusal in self.refusals:
            conditions = [refusal.wire] + ["en"] * self.asked.enable + ["~rst"] * self.asked.reset
            if self.asked.seen is not None:
                conditions.append(f"(({refusal.level} & ~{self.level(self.asked.seen)}) == {self.interface.tag_width}'d0)")
            yield f"// {os.path.basename(refusal.place)}"
            yield f"assign {refusal.name} = {' & '.join(conditions)};"
            if self.asked.refusals == "all":
                yield f"assign {refusal.level_name} = {refusal.name} ? {refusal.level} : {self.interface.tag_width}'d0;"
        if self.refusals:
            yield f"assign refused_any = {' | '.join(refusal.name for refusal in self.refusals)};"

    def assertions(self):
        """Tag inputs are codes at each edge that counts; `case` takes unknown bits for no code."""
        free = [f"t_{name}" for name in self.inputs if name not in self.tied]
        if not free:
            return
        codes = ", ".join(f"LEVEL_{name}" for name in self.interface.codes)
        yield "`ifndef SYNTHESIS"
        yield f"function is_code(input {self.tags} tag);"
        yield f"  case (tag)\n    {codes}: is_code = 1'b1;\n    default: is_code = 1'b0;\n  endcase\nendfunction"
        conditions = " && ".join(["en"] * self.asked.enable + ["!rst"] * self.asked.reset)
        yield f"always @(posedge clk) {f'if ({conditions}) ' if conditions else ''}begin"
        for tag in free:
            yield f'  if (!is_code({tag})) begin $display("%m: at %0t {tag} is %b, the code of no level", $time, {tag}); $stop; end'
        yield "end\n`endif"

    # The module itself.

    def core(self):
        controls = "".join(f"\n  input {name}," for name in self.controls())
        ports = ",\n".join(f"  {port.kind} [{port.width - 1}:0] {port.name}" for port in self.given.ports)
        yield f"// The module as it was written{', but for its steps at rst and en' if controls else ''}."
        yield f"module {self.name}_core(\n  input clk,{controls}\n{ports}\n);"
        body = self.given.without_unwritten() if self.asked.reset else self.given.body
        if self.is_clearing():
            yield from self.counter()
        for index in dict.fromkeys(found[3] for found in STORE.finditer(body) if "'" in found[3]):
            high = int(index.partition("'")[0]) - 1
            yield f"// The cell of a write, for Yosys by a wire.\nwire [{high}:0] {cell_of(index)};\nassign {cell_of(index)} = {index};"
        body = STORE.sub(by_wire, body)
        yield STEP.sub(self.stepped, STORE.sub(self.stored, body)) if controls else body

    def is_clearing(self):
        return self.asked.clear and bool(self.written_memories())

    def counter(self):
        """The cell that is cleared, from 0 on while rst is 1."""
        bits = self.cells().bit_length() - 1
        yield f"reg [{bits - 1}:0] clearing;\ninitial clearing = {bits}'d0;"
        yield f"always @(posedge clk) clearing <= rst ? clearing + {bits}'d1 : {bits}'d0;"

    def held(self):
        return ["en"] * self.asked.enable + ["~rst"] * self.asked.reset

    def stored(self, found):
        condition, memory, index, value = found.groups()
        if memory in self.given.unwritten:
            return found[0]
        if not self.is_clearing():
            return f"always @(posedge clk) if ({' & '.join([condition, *self.held()])}) {memory}[{index}] <= {value};"
        cell = f"clearing[{self.given.depths[memory].bit_length() - 2}:0]"
        happens = " & ".join([condition] + ["en"] * self.asked.enable)
        return f"always @(posedge clk) if (rst | {happens}) {memory}[rst ? {cell} : {index}] <= rst ? {self.given.starts[memory]} : {value};"

    def stepped(self, found):
        """The tag of a dynamic memory belongs to its contents: it is reset when the last cell is cleared, or never."""
        register, value = found.groups()
        belongs = register in self.tags_of_contents() and self.asked.reset
        if belongs and not self.is_clearing():
            return f"always @(posedge clk) if ({' & '.join(self.held())}) {register} <= {value};"
        if not self.asked.reset:
            return f"always @(posedge clk) if (en) {register} <= {value};"
        if register not in self.given.starts:
            raise Stop(f"{self.asked.module}: {register} has no initial number", 5)
        reset, step = ("rst & (&clearing)", "en & ~rst" if self.asked.enable else "~rst") if belongs else ("rst", "en" if self.asked.enable else "")
        return f"always @(posedge clk) if ({reset}) {register} <= {self.given.starts[register]}; else {f'if ({step}) ' if step else ''}{register} <= {value};"

    def warnings(self):
        if self.asked.reset and not self.asked.clear:
            for name, memory in self.written_memories().items():
                yield f"wrap: warning: rst leaves the memory {name} ({memory.depth.value} cells of {memory.width.value} bits) and its tags as they are"
