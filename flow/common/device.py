"""Modules on an iCE40 HX8K: what synthesis makes of them, and the clock that place and route meets."""
import re
import subprocess

from common.program import Stop, read, said, write

DEVICE = ["--hx8k", "--package", "ct256"]


def tried(*words):
    """The status of a command, and what it writes."""
    ran = subprocess.run(words, stdout=subprocess.PIPE, stderr=subprocess.STDOUT, text=True, check=False)
    return ran.returncode, ran.stdout


def ports_of(files, top):
    """The name of a module, the first of the files where none is said, and its ports but for the clock: kind, width and name."""
    text = re.sub(r"//[^\n]*", "", "\n".join(map(read, files)))
    name = top or r"[A-Za-z_]\w*"
    head = re.search(rf"\bmodule\s+({name})\s*\((.*?)\)\s*;", text, re.DOTALL)
    if not head:
        raise Stop(f"no module {top or ''} in {', '.join(files)}", 5)
    found = re.findall(r"\b(input|output)\b(?:\s+(?:reg|wire))?\s*(?:\[\s*(\d+)\s*:\s*0\s*\])?\s*([A-Za-z_]\w*)", head[2])
    return head[1], [(kind, int(high or 0) + 1, name) for kind, high, name in found if name != "clk"]


def placed(ports, kind, bus):
    """The connections of the ports of a kind to the bits of a bus, and how many bits these are."""
    pins, at = [], 0
    for one, width, name in ports:
        if one == kind:
            pins.append(f".{name}({bus}[{at + width - 1}:{at}])")
            at += width
    return pins, at


def around(name, ports):
    """A module with four pins around the one of this name: its inputs get what was shifted in, and what its outputs show is shifted out."""
    inputs, given = placed(ports, "input", "given")
    outputs, shown = placed(ports, "output", "shown")
    lines = ["module device(input clk, input load, input in, output out);"]
    if given:
        lines.append(f"reg [{given}:0] given;\nalways @(posedge clk) given <= {{given[{given - 1}:0], in}};")
    lines.append(f"wire [{shown - 1}:0] shown;\nreg [{shown}:0] held;")
    lines.append(f"always @(posedge clk) held <= load ? {{shown, 1'd0}} : {{held[{shown - 1}:0], 1'd0}};")
    lines.append(f"assign out = held[{shown}];")
    lines.append(f"{name} dut({', '.join(['.clk(clk)', *inputs, *outputs])});\nendmodule\n")
    return "\n".join(lines)


def counted(files, name):
    """How many LUTs, carries, flip-flops and blocks of memory of the device Yosys makes of a module."""
    told = said("yosys", "-p", f"read_verilog {' '.join(files)}; synth_ice40 -flatten -top {name}; stat")
    told = told[told.rindex("Number of cells:") :]
    of = {cell: int(count) for cell, count in re.findall(r"^ +(SB_\w+) +(\d+)$", told, re.MULTILINE)}
    flops = sum(count for cell, count in of.items() if cell.startswith("SB_DFF"))
    blocks = sum(count for cell, count in of.items() if cell.startswith("SB_RAM"))
    return of.get("SB_LUT4", 0), of.get("SB_CARRY", 0), flops, blocks


def synthesized(files, name, ports, folder):
    """The netlist of a module between two shift registers, as a file for place and route."""
    top, net = f"{folder}/device.v", f"{folder}/net.json"
    write(top, around(name, ports))
    said("yosys", "-q", "-p", f"read_verilog {' '.join(files)} {top}; synth_ice40 -top device -json {net}")
    return net


def placed_and_routed(net, seed, *more):
    """The status of place and route, and what it writes."""
    return tried("nextpnr-ice40", *DEVICE, "--freq", "100", "--seed", str(seed), "--timing-allow-fail", "--json", net, *more)


def clock_met(told):
    """The highest clock in MHz, from what place and route writes."""
    return float(re.findall(r"Max frequency for clock [^:]*: ([\d.]+) MHz", told)[-1])
