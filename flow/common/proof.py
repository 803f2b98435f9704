"""Whether a wrapper is the module in it while rst is 0 and en is 1, by Yosys."""
import tempfile

from .program import missing, said, write

# More bits of memory than this aren't taken to registers for a proof, which would take minutes.
MOST_BITS = 256
SCRIPT = """
read_verilog {module}; rename {given} plain_core; read_verilog {wrapper} {harness}
hierarchy -check; proc; memory_collect; memory_map; opt_expr; opt_clean; flatten; opt_clean
equiv_make plain_top own_top both; hierarchy -top both; opt_clean; equiv_simple -seq 1; equiv_induct; equiv_status -assert
"""


def skipped(wrapper):
    """Why nothing can be asked; nothing if it can."""
    bits = sum(memory.width.value * memory.depth.value for memory in wrapper.interface.memories.values())
    if missing("yosys"):
        return "no yosys"
    return f"{bits} bits of memory" if bits > MOST_BITS else None


def prove(wrapper, path):
    """Stops where Yosys doesn't find the two the same."""
    with tempfile.TemporaryDirectory() as folder:
        harness = f"{folder}/harness.v"
        write(harness, harness_of(wrapper))
        script = SCRIPT.format(module=wrapper.given.path, given=wrapper.given.name, wrapper=path, harness=harness)
        said("yosys", "-q", "-p", script.strip().replace("\n", "; "))


def harness_of(wrapper):
    """Two modules of the same ports: around the given module, with what its refusals are to show, and around the wrapper."""
    shared = [(kind, bits, name) for kind, bits, name in wrapper.ports() if name not in wrapper.controls()]
    ports = ", ".join(" ".join(filter(None, port)) for port in shared)
    names = ", ".join(f".{name}({name})" for _, _, name in shared)
    controls = {"rst": ", .rst(1'b0)", "en": ", .en(1'b1)"}
    own = f"{wrapper.name} dut({names}{''.join(controls[name] for name in wrapper.controls())});"
    return "\n".join([
        f"module plain_top({ports});\nplain dut({names});\nendmodule",
        f"module own_top({ports});\n{own}\nendmodule",
        f"module plain({ports});",
        *plain_body(wrapper),
        "endmodule\n",
    ])


def plain_body(wrapper):
    """The given module, its refusals by their names."""
    shown, codes, width = {name for _, _, name in wrapper.ports()}, wrapper.interface.codes, wrapper.interface.tag_width
    for port in wrapper.given.ports:
        if port.name not in shown:
            yield f"wire [{port.width - 1}:0] {port.name};"
    for name in wrapper.asked_ties():
        yield f"assign t_{name[0]} = {width}'d{codes[name[1]]};"
    yield f"plain_core core(.clk(clk){''.join(f', .{port.name}({port.name})' for port in wrapper.given.ports)});"
    seen = wrapper.asked.seen
    for one in wrapper.interface.refusals:
        if one.name not in shown:
            yield f"wire {one.name}; wire [{width - 1}:0] {one.level_name};"
        is_seen = f" && ({one.level} | {width}'d{codes[seen]}) == {width}'d{codes[seen]}" if seen is not None else ""
        yield f"assign {one.name} = {one.wire}{is_seen};\nassign {one.level_name} = {one.wire}{is_seen} ? {one.level} : 0;"
    if "refused_any" in shown:
        yield f"assign refused_any = |{{{', '.join(one.name for one in wrapper.interface.refusals)}}};"
