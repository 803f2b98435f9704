"""The operators of a module beside those that Yosys leaves of it."""

import re
import subprocess

# Ours to those of Yosys, at most; of a module of a few operators one more is no ratio to judge by.
BAR = 1.3


def left(path, behind):
    """How many cells Yosys leaves, flip-flops and memories aside."""
    said = subprocess.run(["yosys", "-p", f"read_verilog {path}; proc; opt -full; {behind}stat"], check=True, capture_output=True, text=True).stdout
    said = said[said.rindex("Number of cells:"):]
    cells = int(re.search(r"Number of cells:\s+(\d+)", said).group(1))
    return cells - sum(int(n) for n in re.findall(r"\$(?:sdff|dff|dffe|adff|sdffe|sdffce|mem\w*)\s+(\d+)", said))


def counted(name, path):
    """Prints what is left of a module, and answers whether it is few enough. What Yosys leaves with enables and resets is told beside it."""
    text = open(path).read()
    items = len(re.findall(r"^\s*(?:assign|always)\b", text, re.M))
    rights = re.findall(r"^\s*assign\s+\S+\s*=\s*(.*);", text, re.M)
    ours = sum(1 for right in rights if re.search(r"[?|&^+\-*~<>!=]", right))
    plain, enabled = left(path, "dffunmap; opt -full -nodffe -nosdff; "), left(path, "")
    print(f"{name}: {items} items, {ours} operators, Yosys leaves {plain}: {ours / max(1, plain):.2f} times; {enabled} with enables and resets")
    return ours <= max(BAR * plain, plain + 1)
