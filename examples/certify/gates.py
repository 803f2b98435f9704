"""The netlist that synthesis leaves of a module, as copies in a question, and the question whether it does what the text does."""

import json
import os
import re
import shutil

from question import COPIES, Copies, Place, both, conjunction, items_of_copy, keeping, module_text
from solvers import ToolFailed, called, yosys

# How netlists are made. State registers keep the numbers that the text gives them, and memories are made of registers.
FLOWS = {"synth": "synth -flatten -top top", "synth_ice40": "synth_ice40 -nobram -top top"}
SYNTHESIS = 'read_verilog -nomem2reg top.v; setattr -set fsm_encoding "none" w:*; hierarchy -check -top top; proc; memory_map; {flow}; write_json netlist.json'
# What is read beside a question. Where any state may be the first, the starts of registers are taken away.
BESIDE = "read_json gates.json; {cells}"
WITH_STARTS = "dffunmap;"
WITHOUT_STARTS = "dffunmap; setattr -unset init w:*;"


class Gates:
    """A netlist, by the names that synthesis kept of registers and of cells of memories."""

    def __init__(self, module, interface, module_file, flow, folder):
        self.module = module
        self.interface = interface
        self.folder = folder
        shutil.copy(module_file, os.path.join(folder, "top.v"))
        yosys(SYNTHESIS.format(flow=FLOWS[flow]), folder)
        with open(os.path.join(folder, "netlist.json"), encoding="ascii") as file:
            self.netlist = json.load(file)["modules"]["top"]
        self.nets = {name: net["bits"] for name, net in self.netlist["netnames"].items()}
        self.left_out = [name for name in self.widths() if name not in self.nets]
        self.check_widths()
        self.write()

    def widths(self):
        """The width of each register, and of each cell of a memory."""
        arrays = self.interface.arrays().items()
        return self.interface.plain_registers() | {f"{name}[{cell}]": width for name, (width, depth) in arrays for cell in range(depth)}

    def check_widths(self):
        """A register that synthesis made narrower is none of the text's."""
        for name, width in self.widths().items():
            if name in self.nets and len(self.nets[name]) != width:
                raise ToolFailed(f"synthesis made {name} {len(self.nets[name])} bits wide, by the text it has {width}")

    def cell_nets(self):
        """The nets of all cells of memories, each with the name of its port."""
        return {f"{name}[{cell}]": port_of_cell(name, cell) for name, (_, depth) in self.interface.arrays().items() for cell in range(depth)}

    def write(self):
        """The netlist with a port for each register and cell."""
        ports = dict(self.netlist["ports"])
        for name, port in ({name: name for name in self.interface.plain_registers()} | self.cell_nets()).items():
            if name in self.nets and port not in ports:
                ports[port] = {"direction": "output", "bits": self.nets[name]}
        gates = self.netlist | {"ports": ports, "attributes": {}}
        self.ports = ports
        with open(os.path.join(self.folder, "gates.json"), "w", encoding="ascii") as file:
            json.dump({"modules": {"gates": gates}}, file)

    def cells(self):
        return len(self.netlist["cells"])

    def beside(self):
        """The commands that read the netlist beside a question."""
        types = {cell["type"] for cell in self.netlist["cells"].values() if not cell["type"].startswith("$")}
        if not types:
            return BESIDE.format(cells="")
        with open(os.path.join(self.folder, "cells.v"), "w", encoding="ascii") as file:
            file.write(models_of(types))
        return BESIDE.format(cells="read_verilog cells.v;")

    # Copies in a question.

    def items(self, copy):
        """A copy of the netlist. What synthesis left out has the number that it starts with."""
        items = []
        widths = self.interface.plain_registers()
        for name, width in widths.items():
            items.append(f"wire [{width - 1}:0] {name}{copy};")
        for name, (width, depth) in self.interface.arrays().items():
            items += [f"wire [{width - 1}:0] {port_of_cell(name, cell)}{copy};" for cell in range(depth)]
        for port in self.module.ports:
            if port.kind == "output wire":
                items.append(f"wire [{port.width - 1}:0] {port.name}{copy};")
        cells = self.cell_nets()
        for name in self.left_out:
            array = name.partition("[")[0]
            items.append(f"assign {cells.get(name, name)}{copy} = {self.module.widths[array]}'d{self.module.starts[array]};")
        connected = ", ".join([".clk(clk)", *(f".{port}({port}{copy})" for port in self.ports if port != "clk")])
        return [*items, f"gates gates{copy}({connected});"]

    def copies(self):
        ports = [f"input [{port.width - 1}:0] {name}" for port in self.module.inputs() for name in both(port.name)]
        copies = Copies([item for copy in COPIES for item in self.items(copy)], ports)
        for memory in self.interface.memories:
            copies.asked[memory.name] = [self.place(memory, cell) for cell in range(2**memory.index_width)]
            copies.read[memory.name] = []
        return copies

    def place(self, memory, cell):
        names = (f"v_{memory.name}", f"t_{memory.name}")
        wires = (both(port_of_cell(name, cell) if name in self.module.depths else name) for name in names)
        return Place(memory, *wires, cell)

    # Gates and text.

    def equivalence(self, text):
        """The question whether the netlist does what the text does: from equal registers and on equal inputs, equal outputs now and equal registers behind
        the edge. Registers that keep their start by the text have it."""
        inputs = self.module.inputs()
        items = [f"wire [{port.width - 1}:0] {port.name}_2;\nassign {port.name}_2 = {port.name}_1;" for port in inputs]
        items += ["integer i;", *items_of_copy(self.module, text, "_1"), *self.items("_2")]
        wires = [port.name for port in self.module.ports if port.kind == "output wire"]
        same = [f"({name}_1 == {name}_2)" for name in self.interface.plain_registers() if name in self.nets]
        for name, (_, depth) in self.interface.arrays().items():
            same += [f"({name}_1[{cell}] == {port_of_cell(name, cell)}_2)" for cell in range(depth) if f"{name}[{cell}]" in self.nets]
        kept = [f"({name}_1 == {self.module.widths[name]}'d{start})" for name, start in keeping(self.module).items() if name not in self.module.depths]
        items += [f"assign premises =\n  {conjunction([*same, *kept])};", "assign states = premises;"]
        items.append(f"assign refusals =\n  {conjunction(f'({name}_1 == {name}_2)' for name in wires)};")
        ports = [f"input [{port.width - 1}:0] {port.name}_1" for port in inputs] + ["output premises", "output states", "output refusals"]
        return module_text(ports, items)


def port_of_cell(name, cell):
    return f"cell_{cell}_of_{name}"


def models_of(types):
    """What Yosys says that cells of the device do: their modules out of its file."""
    done = called(["yosys-config", "--datdir"], ".") if shutil.which("yosys-config") else None
    folder = done[1].strip() if done else os.path.join(os.path.dirname(os.path.dirname(shutil.which("yosys"))), "share", "yosys")
    path = os.path.join(folder, "ice40", "cells_sim.v")
    try:
        with open(path, encoding="ascii") as file:
            text = file.read()
    except OSError as error:
        raise ToolFailed(f"{path}: {error.strerror}") from error
    head = text[: text.index("\nmodule ")]
    models = {found[1]: found[0] for found in re.finditer(r"^module (\w+) .*?^endmodule", text, re.MULTILINE | re.DOTALL)}
    unknown = sorted(types - set(models))
    if unknown:
        raise ToolFailed(f"{path}: it has no {', '.join(unknown)}")
    return "\n".join([head, *(models[name] for name in sorted(types)), ""])
