"""Designs as the program reports them, and their trees as the independent parser of test/model reads them."""
import os
import re
import sys
import tomllib
from dataclasses import dataclass

from .program import TOP, Stop, read, read_design, told

sys.path.insert(1, f"{TOP}/test")
from model.parser import tree_of  # noqa: E402
from model.tree import Dynamic, Input, Memory, Register, states_below  # noqa: E402

# The parser and what walks a tree call themselves: at most 64 blocks, 64 brackets and 256 tokens of an expression deep, by a dozen calls for each.
sys.setrecursionlimit(20_000)


@dataclass(frozen=True)
class Site:
    """A check site: its number, place, kind and entity."""

    number: int
    line: int
    column: int
    kind: str
    entity: str


class Part:
    """A design, and what stands between the two first bytes and the name of what it has in a module: nothing, or its part's name and `_`."""

    def __init__(self, lattice, path, prefix=""):
        self.path, self.prefix = path, prefix
        report = told("report", lattice, path)
        self.codes = {name: int(code) for name, code in re.findall(r"^level (\w+) (\d+)$", report, re.MULTILINE)}
        sites = re.findall(r"^site (\d+) (\d+):(\d+) (\w+) (\w+)$", report, re.MULTILINE)
        self.sites = [Site(int(number), int(line), int(column), kind, name) for number, line, column, kind, name in sites]
        self.tree = tree_of(read_design(path))

    def of_sort(self, sort):
        return [one for one in self.tree.declarations if isinstance(one, sort)]

    @property
    def inputs(self):
        return self.of_sort(Input)

    @property
    def registers(self):
        return self.of_sort(Register)

    @property
    def memories(self):
        return self.of_sort(Memory)

    def groups(self):
        """For each group with a register of its current child the name behind `s_`, and the names of its children."""
        yield f"{self.prefix}0", [state.name.text for state in self.tree.states]
        for state in states_below(self.tree.states):
            if state.children:
                yield self.prefix + state.name.text, [child.name.text for child in state.children]


def is_dynamic(declared):
    return isinstance(declared.kind, Dynamic)


def parts_of_system(path):
    """The names and files of a system's parts."""
    try:
        return [(name, file) for name, file in tomllib.loads(read(path))["parts"]]
    except (tomllib.TOMLDecodeError, KeyError, TypeError, ValueError) as fault:
        raise Stop(f"{path}: no system file", 9) from fault


def is_system(path):
    return path.endswith(".toml")


def parts_of(lattice, path):
    """The parts of a system file, or a design as its only part."""
    if not is_system(path):
        return [Part(lattice, path)]
    told("link", lattice, path, os.devnull)
    return [Part(lattice, file, f"{name}_") for name, file in parts_of_system(path)]
