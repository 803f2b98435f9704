"""A module of the subset of docs/MODULES.md, as text with its ports and registers found."""
import re
from dataclasses import dataclass

from .program import Stop, read

NAME, NUMBER, OPERAND = r"[A-Za-z_]\w*", r"\d+'d\d+", r"(?:[A-Za-z_]\w*|\d+'d\d+)"
STEP = re.compile(rf"always\s*@\s*\(\s*posedge\s+clk\s*\)\s*({NAME})\s*<=\s*({OPERAND})\s*;")
STORE = re.compile(rf"always\s*@\s*\(\s*posedge\s+clk\s*\)\s*if\s*\(\s*({OPERAND})\s*\)\s*({NAME})\s*\[\s*({OPERAND})\s*\]\s*<=\s*({OPERAND})\s*;")


@dataclass(frozen=True)
class Port:
    """A port other than the clock: `input`, `output reg` or `output wire`, its width and its name."""

    kind: str
    width: int
    name: str


class Module:
    def __init__(self, path):
        self.path = path
        self.text = re.sub(r"//[^\n]*", "", read(path)).strip()
        head = re.match(rf"module\s+({NAME})\s*\((.*?)\)\s*;", self.text, re.DOTALL)
        if not head:
            raise Stop(f"{path}: no module of the subset", 5)
        self.name, self.body = head[1], self.text[head.end() :].strip()
        found = re.findall(rf"\b(input|output\s+reg|output\s+wire)\s*\[\s*(\d+)\s*:\s*0\s*\]\s*({NAME})", head[2])
        self.ports = [Port(" ".join(kind.split()), int(high) + 1, name) for kind, high, name in found]
        self.widths = {port.name: port.width for port in self.ports}
        self.starts = dict(re.findall(rf"\binitial\s+({NAME})\s*=\s*({NUMBER})\s*;", self.body))
        self.starts.update(re.findall(rf"\binitial\s+for\s*\([^)]*\)\s*({NAME})\s*\[\s*i\s*\]\s*=\s*({NUMBER})\s*;", self.body))
        self.depths = {name: int(last) + 1 for name, last in re.findall(rf"\breg\s*\[\s*\d+\s*:\s*0\s*\]\s*({NAME})\s*\[\s*0\s*:\s*(\d+)\s*\]\s*;", self.body)}
        self.unwritten = {memory for condition, memory, _, _ in STORE.findall(self.body) if condition.endswith("'d0")}

    def constants(self):
        """The wires that are assigned a number, also by way of wires."""
        right_sides = dict(re.findall(rf"\bassign\s+({NAME})\s*=\s*({OPERAND})\s*;", self.body))
        found = {}
        for name in right_sides:
            end = name
            while end in right_sides:
                end = right_sides[end]
            if "'" in end:
                found[name] = int(end.split("'d")[1])
        return found

    def without_unwritten(self):
        """The body with the number that they begin with in place of reads of memories that are never written: a tool that drops `initial` keeps it."""
        body = self.body
        for memory in self.unwritten:
            body = re.sub(rf"\breg\s*\[[^]]*\]\s*{memory}\s*\[[^]]*\]\s*;\n?", "", body)
            body = re.sub(rf"\binitial\s+for\s*\([^)]*\)\s*{memory}\s*\[\s*i\s*\]\s*=[^;]*;\n?", "", body)
            body = STORE.sub(lambda found, memory=memory: "" if found[2] == memory else found[0], body)
            body = re.sub(rf"=\s*{memory}\s*\[[^]]*\]\s*;", f"= {self.starts[memory]};", body)
        return re.sub(r"\n\n+", "\n", body)

    def need(self, name, kind, width=None):
        """Stops where this port isn't there: the module is another design's."""
        port = next((port for port in self.ports if port.name == name), None)
        if port is None or port.kind.split()[0] != kind or width not in (None, port.width):
            raise Stop(f"{self.path} isn't the module of this design: it has no {kind} {name}" + (f" of {width} bits" if width else ""), 5)
