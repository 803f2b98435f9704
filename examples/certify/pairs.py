"""A pair that a solver found: two states and two inputs, clocked once by a simulator, judged again and written down."""

import os
import re
import shutil
from dataclasses import dataclass

from judge import State, called as called_cell
from question import renamed
from solvers import ToolFailed, called

TOP = os.path.dirname(os.path.dirname(os.path.dirname(os.path.realpath(__file__))))
PROGRAM = os.path.join(TOP, "sapper")
COPIES = ("_1", "_2")


@dataclass
class Pair:
    """Of each copy the state before the cycle, the inputs, the wires of the check sites, and the state after it. `by` clocked it, if anything did."""

    before: list
    inputs: list
    wires: list
    after: list
    by: str | None = None
    against: list | None = None


def pair_of(question, steps):
    """The pair in the first step of an answer. Cells that the question doesn't look at have the numbers that they start with."""
    interface, first = question.interface, steps[0]
    pair = Pair([], [], [], [])
    for number, copy in enumerate(COPIES):
        state = state_of(question, first, number)
        pair.before.append(state)
        pair.inputs.append({port.name: first[port.name + copy] for port in question.module.inputs()})
        pair.wires.append({f"{sort}_{site}": first[f"{sort}_{site}{copy}"] for site in range(1, interface.sites + 1) for sort in "cl"})
    return pair


def state_of(question, numbers, copy):
    interface = question.interface
    starts = interface.starts()
    registers = {name: numbers.get(name + COPIES[copy], starts[name]) for name in interface.plain_registers()}
    memories = {name: [starts[name]] * depth for name, (_, depth) in interface.arrays().items()}
    for memory in interface.memories:
        for place in question.copies.cells(memory):
            # (where nothing is written a solver may leave the chosen cell's number out, and each cell is as it started)
            cell = place.cell if isinstance(place.cell, int) else numbers.get(place.cell, 0)
            for name, wires in ((f"v_{memory.name}", place.values), (f"t_{memory.name}", place.tags)):
                if name in memories:
                    memories[name][cell] = numbers.get(wires[copy], starts[name])
    return State(registers, memories)


# Clocking.


def clock(pair, question, subject, folder):
    """Clocks both copies from their states, by Icarus Verilog, else by `sapper sim`, which doesn't show what memories hold."""
    if shutil.which("iverilog") and shutil.which("vvp"):
        pair.by, clocked = "iverilog", by_icarus
    elif os.access(PROGRAM, os.X_OK) and not question.interface.memories:
        pair.by, clocked = "sapper sim", by_sim
    else:
        return
    rows = [clocked(question, subject, *one, folder) for one in zip(pair.before, pair.inputs)]
    pair.wires, pair.after = [wires for wires, _ in rows], [state for _, state in rows]


def written(folder, name, lines):
    with open(os.path.join(folder, name), "w", encoding="ascii") as file:
        file.write("\n".join([*lines, ""]))


def wires_of_sites(question):
    return [f"{sort}_{site}" for site in range(1, question.interface.sites + 1) for sort in "cl"]


def by_sim(question, subject, state, inputs, folder):
    """The same by `sapper sim`, which shows registers with tags: each register gets another for a tag, and so does one for each wire of a check site."""
    module, widths, sites = question.module, question.module.widths, wires_of_sites(question)
    shown_names = {f"q{name}": (widths[name], number) for name, number in state.registers.items()} | {f"of_{name}": (widths[name], 0) for name in sites}
    ports = ["input clk", *(f"input [{port.width - 1}:0] v_q{port.name}" for port in module.inputs())]
    for name, (width, _) in shown_names.items():
        ports += [f"output reg [{width - 1}:0] v_{name}", f"output reg [{question.width - 1}:0] t_{name}"]
    lines = [f"module top({', '.join(ports)});", *(f"wire [{widths[name] - 1}:0] v_q{name};" for name in sites)]
    for item in renamed(subject.text, "", "v_q"):
        if item[0] != "initial" and not (item[0] == "reg" and item[-2].removeprefix("v_q") in state.registers):
            lines.append(" ".join(item))
    for name, (width, number) in shown_names.items():
        bottom = f"{question.width}'d0"
        lines += [f"initial v_{name} = {width}'d{number};", f"initial t_{name} = {bottom};", f"always @(posedge clk) t_{name} <= {bottom};"]
    lines += [f"always @(posedge clk) v_of_{name} <= v_q{name};" for name in sites]
    written(folder, "clocked.v", [*lines, "endmodule"])
    written(folder, "clocked.txt", [" ".join(str(inputs[port.name]) for port in module.inputs())])
    status, said = called([PROGRAM, "sim", os.path.abspath(subject.lattice_file), "clocked.v", "clocked.txt"], folder)
    if status:
        raise ToolFailed(f"sapper sim: {said.strip()[:200]}")
    numbers = {name: int(number) for name, number in re.findall(r" (\w+)=(\d+)@", said)}
    return {name: numbers[f"of_{name}"] for name in sites}, State({name: numbers[f"q{name}"] for name in state.registers})


def starting_in(text, state):
    """The lines of a module that starts in a state."""
    head = text[: text.index(";") + 1]
    items = [" ".join(item) for item in renamed(text, "") if item[0] != "initial"]
    items += [f"initial {name} = {number};" for name, number in state.registers.items()]
    items += [f"initial {name}[{cell}] = {number};" for name, cells in state.memories.items() for cell, number in enumerate(cells)]
    return [head, *items, "endmodule"]


def by_icarus(question, subject, state, inputs, folder):
    """The wires of the check sites before the edge, and the state after it."""
    module = question.module
    lines = ["module bench;", "reg clk = 0;", "integer i;"]
    lines += [f"reg [{port.width - 1}:0] {port.name} = {port.width}'d{inputs[port.name]};" for port in module.inputs()]
    lines += [f"top dut(.clk(clk){''.join(f', .{port.name}({port.name})' for port in module.inputs())});", "initial begin", "#1;"]
    wires = wires_of_sites(question)
    lines += [shown(name) for name in wires] + ["clk = 1; #1;"] + [shown(name) for name in state.registers]
    for name, cells in state.memories.items():
        lines.append(f'for (i = 0; i < {len(cells)}; i = i + 1) $display("{name} %0d %0d", i, dut.{name}[i]);')
    written(folder, "clocked.v", starting_in(subject.text, state))
    written(folder, "bench.v", [*lines, "$finish;", "end", "endmodule"])
    said = ""
    for words in (["iverilog", "-g2005", "-s", "bench", "-o", "clocked", "clocked.v", "bench.v"], ["vvp", "-n", "clocked"]):
        status, said = called(words, folder)
        if status:
            raise ToolFailed(f"{words[0]}: {said.strip()[:200]}")
    registers, memories = {}, {name: list(cells) for name, cells in state.memories.items()}
    for line in said.splitlines():
        name, *cell, number = line.split()
        if cell:
            memories[name][int(cell[0])] = int(number)
        else:
            registers[name] = int(number)
    return {name: registers.pop(name) for name in wires}, State(registers, memories)


def shown(name):
    return f'$display("{name} %0d", dut.{name});'


# Judging.


def judged(pair, judge, answer):
    """What is against the answer in a pair that was clocked; nothing where the pair doesn't show what it should, or isn't a pair."""
    wrong = [*judge.inputs(*pair.inputs), *judge.states(*pair.before), *(text for state in pair.before for text in judge.kept(state))]
    if wrong:
        return []
    match answer:
        case "refusals":
            return list(judge.refusals(*pair.wires))
        case "states":
            return list(judge.states(*pair.after))
    return list(dict.fromkeys(text for state in pair.after for text in judge.kept(state)))


# Writing.


def table(pair, judge):
    """The pair in lines: a name, and what it has in the first and in the second."""
    rows = [("", "", "first", "second")]
    interface = judge.interface
    sections = [("before", pair.before, None), ("inputs", pair.inputs, interface.inputs), ("refused", pair.wires, None), ("after", pair.after, None)]
    for title, both, entities in sections:
        if not both:
            continue
        if title == "inputs":
            lines = [(one.name, *(tagged(judge, numbers[f"v_{one.name}"], numbers[f"t_{one.name}"]) for numbers in both)) for one in entities]
        elif title == "refused":
            lines = refused_lines(judge, both)
        else:
            lines = list(state_lines(judge, both))
        rows += [(title if number == 0 else "", *line) for number, line in enumerate(lines)]
    widths = [max(len(row[column]) for row in rows) for column in range(3)]
    return ["  " + "  ".join([*(cell.ljust(width) for cell, width in zip(row, widths)), row[3]]).rstrip() for row in rows]


def state_lines(judge, states):
    for entity, cell in judge.places():
        texts = [tagged(judge, state.number(f"v_{entity.name}", cell), state.tag(entity.name, cell)) for state in states]
        start = tagged(judge, entity.start, judge.lattice.code(entity.level))
        if cell is None or any(text != start for text in texts):
            yield called_cell(entity.name, cell), *texts
    for parent, group in judge.interface.groups.items():
        for_children = [state.registers[group.register] for state in states]
        yield f"in {parent or 'root'}", *(group.children[child] if child < len(group.children) else f"child {child}" for child in for_children)
    for entity in judge.interface.states:
        yield f"state {entity.name}", *(f"@{level_text(judge, state.tag(entity.name))}" for state in states)


def refused_lines(judge, both):
    for site in range(1, judge.interface.sites + 1):
        told = [f"@{level_text(judge, wires[f'l_{site}'])}" if wires[f"c_{site}"] else "no" for wires in both]
        if told != ["no", "no"]:
            yield f"site {site}", *told


def tagged(judge, number, code):
    return f"{number}@{level_text(judge, code)}"


def level_text(judge, code):
    level = judge.level_of(code)
    return f"{code} (no level)" if level is None else judge.lattice.names[level]
