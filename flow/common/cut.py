"""Written modules without their tags."""
import re


class Port:
    def __init__(self, line):
        found = re.fullmatch(r"  (input|output reg|output wire) \[(\d+):0\] (\w+),?", line)
        self.kind, self.width, self.name = (found[1], int(found[2]) + 1, found[3]) if found else ("", 0, "")


def ports_of(module):
    """The ports of a written module, one on each line of its head, but for the clock."""
    head = module[: module.index("\n);\n")]
    return [port for port in map(Port, head.split("\n")) if port.name]


def cut(module):
    """A module with its tags cut out: each tag is the number that it starts with, and so are those of the inputs, 0."""
    starts = dict(re.findall(r"^initial (?:for \([^)]*\) )?(t_\w+)(?:\[i\])? = (\d+'d\d+);$", module, re.MULTILINE))
    head, body = module.split("\n);\n", 1)
    kept, inside = [], []
    for line in head.split("\n"):
        port = Port(line)
        if port.name.startswith("v_"):
            kept.append(line.rstrip(","))
        elif port.name:
            inside.append(f"wire [{port.width - 1}:0] {port.name};")
        if port.name.startswith("t_"):
            start = starts.get(port.name, f"{port.width}'d0")
            inside.append(f"assign {port.name} = {start};")
    for line in body.split("\n"):
        declared = re.fullmatch(r"reg (\[\d+:0\]) (t_\w+)( \[0:\d+\])?;", line)
        if declared and not declared[3]:
            inside.append(f"wire {declared[1]} {declared[2]};\nassign {declared[2]} = {starts[declared[2]]};")
        elif not declared and not re.match(r"(initial|always).* t_\w+(\[\w+\])? <?= ", line):
            inside.append(re.sub(r"= (t_\w+)\[\w+\];$", lambda read: f"= {starts.get(read[1], read[1])};", line))
    return "module top(\n  input clk,\n" + ",\n".join(kept) + "\n);\n" + "\n".join(inside)


def lowest(text, bottom):
    """The canonical text of a design with every level at the lowest, so that no tag ever changes and nothing is refused."""
    return re.sub(r"\benforced \w+( under \w+)?", f"enforced {bottom}", text)
