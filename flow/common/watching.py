"""A testbench that shows a run of a module by names, and how GTKWave is to show its dump."""
import re
from dataclasses import dataclass

from .designs import is_dynamic
from .program import Stop

# How GTKWave keeps what it shows of a trace: hexadecimal; in binary by the names of a file; in decimal; a line of text.
HEXADECIMAL, NAMED, DECIMAL, TEXT = "@22", "@2028", "@24", "@200"
# A cycle is about sixty pixels wide; no marker is set.
ZOOM = "*-5.000000" + " -1" * 27
RED = "[color] 1"


@dataclass(frozen=True)
class Signal:
    """A signal of the testbench, of this width, and by which names it is shown, if by any."""

    name: str
    width: int
    value: str = None
    kind: str = "wire"
    names: str = None
    color: str = None

    def declared(self):
        """A single bit has no range, by which GTKWave would name it otherwise."""
        bits = f"[{self.width - 1}:0] " if self.width > 1 else ""
        value = f" = {self.value}" if self.value is not None else ""
        return f"{self.kind} {bits}{self.name}{value};"

    def shown(self):
        return f"watch.{self.name}[{self.width - 1}:0]" if self.width > 1 else f"#{{{self.name}}} watch.{self.name}"


class Bench:
    """The signals of a run in groups, and for each file of names its numbers, their widths and their names."""

    def __init__(self, interface, module, memories):
        self.interface, self.module, width = interface, module, interface.tag_width
        self.inputs = interface.inputs(module)
        self.names = {"levels": [(code, width, name) for name, code in interface.codes.items()]}
        self.names["refused"] = [(code, width + 1, name) for code, _, name in self.names["levels"]] + [(1 << width, width + 1, "-")]
        self.groups = {
            "States": list(self.states()),
            "Inputs": [signal for name, bits in self.inputs.items() for signal in self.pair(name, bits, kind="reg", value="0")],
            "Registers": [signal for name, bits in interface.registers.items() for signal in self.pair(name, bits)],
            "Refusals": [signal for refusal in interface.refusals for signal in self.refusal(refusal)],
        }
        for words in memories:
            self.groups[f"Memory {words}"] = list(self.memory(words))

    def pair(self, name, width, **rest):
        """What an input or a register has, and its tag."""
        yield Signal(f"v_{name}", width, **rest)
        yield Signal(f"t_{name}", self.interface.tag_width, **rest, names="levels")

    def refusal(self, one):
        yield Signal(one.name, 1, f"on & dut.{one.wire}", color=RED)
        width = self.interface.tag_width
        yield Signal(one.level_name, width + 1, f"{one.name} ? {{1'b0, dut.{one.level}}} : {width + 1}'d{1 << width}", names="refused")

    def states(self):
        """The current child of each group by its name. While the state above isn't current the highest bit is set, and nothing else."""
        for part in self.interface.parts:
            yield from self.group(part.prefix, "0", part.tree.states, "1'b1")

    def group(self, prefix, own, states, is_current):
        name, width = f"state_{prefix}{own}", max(1, (len(states) - 1).bit_length())
        self.names[name] = [(number, width + 1, state.name.text) for number, state in enumerate(states)] + [(1 << width, width + 1, "-")]
        register = f"dut.s_{prefix}{own}"
        yield Signal(name, width + 1, f"{is_current} ? {{1'b0, {register}}} : {width + 1}'d{1 << width}", names=name)
        for number, state in enumerate(states):
            if state.children:
                yield from self.group(prefix, state.name.text, state.children, f"({is_current} && {register} == {number})")

    def memory(self, words):
        name, _, cells = words.partition(":")
        memory = self.interface.memories.get(name)
        if memory is None:
            raise Stop(f"--memory {words}: no memory: {', '.join(self.interface.memories) or 'there is none'}", 2)
        first, _, last = (cells or f"0-{memory.depth.value - 1}").partition("-")
        if not (first.isdigit() and (last or first).isdigit() and int(first) <= int(last or first) < memory.depth.value):
            raise Stop(f"--memory {words}: cells of {name} are 0-{memory.depth.value - 1}", 2)
        if is_dynamic(memory):
            yield Signal(f"memtag_{name}", self.interface.tag_width, f"dut.t_{name}", names="levels")
        for cell in range(int(first), int(last or first) + 1):
            yield Signal(f"mem_{name}_{cell}", memory.width.value, f"dut.v_{name}[{cell}]")
            if not is_dynamic(memory):
                yield Signal(f"memtag_{name}_{cell}", self.interface.tag_width, f"dut.t_{name}[{cell}]", names="levels")

    def part_refusals(self, dump):
        """Puts the refusals that don't happen in a dump behind all else."""
        signs = dict(re.findall(r"\$var wire +1 (\S+) (refused_\w+) \$end", dump))
        happen = {signs[sign] for sign in re.findall(r"^1(\S+)$", dump, re.MULTILINE) if sign in signs}
        refusals = self.groups["Refusals"]
        pairs = list(zip(refusals[::2], refusals[1::2]))
        self.groups["Refusals"] = [one for pair in pairs if pair[0].name in happen for one in pair]
        self.groups["Refusals that don't happen here"] = [one for pair in pairs if pair[0].name not in happen for one in pair]

    # The testbench.

    def text(self, lines, out):
        """A testbench that clocks the module through the lines of a stimulus. Inputs change behind an edge, so none is seen by the edge before it."""
        ports = "".join(f", .{port.name}({port.name})" for port in self.module.ports if port.kind != "output wire")
        signals = [signal for group in self.groups.values() for signal in group]
        head = ["`timescale 1ns/1ns", "module watch;", "reg clk = 0;", "reg [31:0] cycle = 0;", "reg on = 1;", f"{self.module.name} dut(.clk(clk){ports});"]
        steps = [step for fields, count in lines for step in self.steps(fields, count)]
        body = ["task step; begin cycle <= cycle + 1; #5 clk = 0; #5 clk = 1; end endtask", "initial begin", f'  $dumpfile("{out}");', "  $dumpvars(1, watch);"]
        return "\n".join([*head, *(signal.declared() for signal in signals), *body, *steps, "  on <= 0; #5 clk = 0; #5 $finish;", "end", "endmodule", ""])

    def steps(self, fields, count):
        given = []
        for name, (value, *level) in zip(self.inputs, fields):
            given.append(f"v_{name} <= {self.inputs[name]}'d{value};")
            given += [f"t_{name} <= {self.interface.codes[one]};" for one in level]
        yield "  " + " ".join([*given, f"repeat ({count}) step;" if count > 1 else "step;"])


def save_file(bench, stem, files):
    """How GTKWave shows the dump: groups under their headings, numbers in hexadecimal, levels and states by name."""
    lines = [f'[dumpfile] "{stem}.vcd"', f'[savefile] "{stem}.gtkw"', "[timestart] 0", "[size] 1400 800", ZOOM, DECIMAL, "watch.cycle[31:0]"]
    numbers = {name: f"^{number} {path}" for number, (name, path) in enumerate(files.items(), 1)}
    for heading, signals in bench.groups.items():
        if signals:
            lines += [TEXT, f"-{heading}"]
        for signal in signals:
            lines += [signal.color] if signal.color else []
            lines += [NAMED, numbers[signal.names], signal.shown()] if signal.names else [HEXADECIMAL, signal.shown()]
    return "\n".join([*lines, ""])
