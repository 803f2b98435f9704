"""Copies of a text whose memories are the cells that are looked at, and no more: for a solver without arrays.

Of each copy a memory is a register for the chosen cell and, for each operand by which a copy reads, a wire. The wire has the number of the first operand
before it that has the same index, so that equal indices have equal numbers, and else any number. A write changes the register where its index is the chosen
cell's. So a memory of any depth takes as much as its reads.
"""

from question import COPIES, Copies, Place, addresses_read, both, is_never_written, renamed


def copies_by_cells(interface, module, text):
    copies = Copies([], [f"input [{port.width - 1}:0] {name}" for port in module.inputs() for name in both(port.name)])
    behind, wire_of_read = [], {}
    for memory in interface.memories:
        add_memory(copies, behind, wire_of_read, module, memory)
    for copy in COPIES:
        outputs = [port for port in module.ports if port.kind != "input"]
        copies.items += [f"{port.kind.removeprefix('output ')} [{port.width - 1}:0] {port.name}{copy};" for port in outputs]
        for item in renamed(text, copy):
            copies.items += without_arrays(item, copy, module, interface, wire_of_read)
    copies.items += behind
    return copies


def add_memory(copies, behind, wire_of_read, module, memory):
    """Declares the wires of a memory in front of the copies' items; what they are is said behind these."""
    most, chosen = memory.index_width - 1, chosen_cell(memory)
    copies.items += [f"reg [{most}:0] {chosen};"]
    behind += [f"always @(posedge clk) {chosen} <= {chosen};"]
    addresses = list(dict.fromkeys([chosen, *addresses_read(module, memory)]))
    indices = [f"index_{number}_of_{memory.name}" for number in range(len(addresses))]
    for index, address in zip(indices, addresses):
        copies.items.append(f"wire [{most}:0] {index};")
        behind.append(f"assign {index} = {address};")
    arrays = [name for name in (f"v_{memory.name}", f"t_{memory.name}") if name in module.depths]
    for name in arrays:
        for copy in COPIES:
            add_array(copies, behind, module, name, copy, indices)
            wire_of_read |= {(name + copy, address): f"at_{number}_{name}{copy}" for number, address in enumerate(addresses)}
    wires_at = lambda name, number: both(f"at_{number}_{name}" if name in arrays else name)
    places = [Place(memory, wires_at(f"v_{memory.name}", number), wires_at(f"t_{memory.name}", number), index) for number, index in enumerate(indices)]
    copies.asked[memory.name], copies.read[memory.name] = places[:1], places[1:]


def add_array(copies, behind, module, name, copy, indices):
    """The wires of one array of a copy, for each index."""
    declared, start = f"[{module.widths[name] - 1}:0]", f"{module.widths[name]}'d{module.starts[name]}"
    wires = [f"at_{number}_{name}{copy}" for number in range(len(indices))]
    copies.items += [f"wire {declared} {wire};" for wire in wires]
    if is_never_written(module, name):
        behind += [f"assign {wire} = {start};" for wire in wires]
        return
    copies.items.append(f"reg {declared} held_{name}{copy};")
    behind.append(f"assign {wires[0]} = held_{name}{copy};")
    for number in range(1, len(indices)):
        free = f"free_{number}_{name}{copy}"
        copies.ports.append(f"input {declared} {free}")
        equal = "".join(f"{indices[number]} == {indices[earlier]} ? {wires[earlier]} : " for earlier in range(number))
        behind.append(f"assign {wires[number]} = {equal}{free};")


def chosen_cell(memory):
    return f"cell_of_{memory.name}"


def without_arrays(item, copy, module, interface, wire_of_read):
    """An item of a copy, with what it says of an array said of its wires; none for an array's declaration and its `initial`."""
    arrays = {name + copy: name for name in module.depths}
    if item[0] in ("integer", "initial") or (item[0] == "reg" and item[-2] == "]"):
        return []
    if item[0] == "assign" and item[3] in arrays:
        return [f"assign {item[1]} = {wire_of_read[item[3], item[5]]};"]
    if item[0] == "always" and item[6:8] == ["if", "("]:
        return write_of(item, arrays[item[10]], copy, module, interface)
    return [" ".join(item)]


def write_of(item, name, copy, module, interface):
    """`always @ ( posedge clk ) if ( ENABLE ) NAME [ INDEX ] <= NUMBER ;`, of the chosen cell."""
    if is_never_written(module, name):
        return []
    memory = next(one for one in interface.memories if one.name == name[2:])
    enable, index, number = item[8], item[12], item[15]
    return [f"always @(posedge clk) if ({enable} & {index} == {chosen_cell(memory)}) held_{name}{copy} <= {number};"]


def cells_held(module):
    """How many registers a copy has for chosen cells."""
    return sum(not is_never_written(module, name) for name in module.depths)
