"""Agreement at a level, and what every state keeps, of states that are given as numbers: by this each pair that a solver finds is judged once more.

A state has a number for each register of the module, and a list of numbers for each memory. Each function answers what is against it, in words, or nothing.
"""

from dataclasses import dataclass, field


@dataclass
class State:
    """A state of a module between cycles, by the names of the module."""

    registers: dict
    memories: dict = field(default_factory=dict)

    def tag(self, name, cell=None):
        return self.number(f"t_{name}", cell)

    def number(self, name, cell=None):
        return self.registers[name] if name in self.registers else self.memories[name][cell]


@dataclass
class Judge:
    """The interface of a module, the numbers of registers that keep them, and the observer's level."""

    interface: object
    keeping: dict
    level: int

    @property
    def lattice(self):
        return self.interface.lattice

    def level_of(self, code):
        return next((level for level in self.lattice.levels if self.lattice.code(level) == code), None)

    def seen(self, code):
        """Whether the level of a tag is at or below the observer's. Of a tag that is no code the bits count, as in the question."""
        level = self.level_of(code)
        if level is None:
            return code & ~self.lattice.code(self.level) == 0
        return self.lattice.is_at_or_below(level, self.level)

    def alike(self, one, other):
        """Two pairs of a number and a code: equal and seen, or neither seen."""
        return one == other if self.seen(one[1]) or self.seen(other[1]) else True

    def places(self):
        """Each register, and each cell of a memory, with its number or None."""
        for one in self.interface.registers:
            yield one, None
        for one in self.interface.memories:
            for cell in range(2**one.index_width):
                yield one, cell

    def inputs(self, one, other):
        for entity in self.interface.inputs:
            pairs = [(numbers[f"v_{entity.name}"], numbers[f"t_{entity.name}"]) for numbers in (one, other)]
            if any(self.level_of(code) is None for _, code in pairs) or not self.alike(*pairs):
                yield f"the input {entity.name}"

    def states(self, one, other):
        for entity, cell in self.places():
            pairs = [(state.number(f"v_{entity.name}", cell), state.tag(entity.name, cell)) for state in (one, other)]
            if not self.alike(*pairs) or self.retagged_in_sight(entity, *(code for _, code in pairs)):
                yield called(entity.name, cell)
        for entity in self.interface.states:
            if self.retagged_in_sight(entity, one.tag(entity.name), other.tag(entity.name)):
                yield f"the tag of the state {entity.name}"
        yield from self.paths(one, other, None)

    def retagged_in_sight(self, entity, one, other):
        return not entity.is_dynamic and self.lattice.is_at_or_below(entity.authority, self.level) and one != other

    def paths(self, one, other, parent):
        """The active paths from a parent down."""
        group = self.interface.groups[parent]
        entered = [group.children[min(state.registers[group.register], len(group.children) - 1)] for state in (one, other)]
        tags = [state.tag(child) for state, child in zip((one, other), entered)]
        if not any(map(self.seen, tags)):
            return
        if entered[0] != entered[1] or tags[0] != tags[1]:
            yield f"the current child of {parent or 'the root'}"
        elif entered[0] in self.interface.groups:
            yield from self.paths(one, other, entered[0])

    def refusals(self, one, other):
        """Of both cycles the numbers of the wires of check sites."""
        for site in range(1, self.interface.sites + 1):
            told = [wires[f"l_{site}"] if wires[f"c_{site}"] and self.seen(wires[f"l_{site}"]) else None for wires in (one, other)]
            if told[0] != told[1]:
                yield f"site {site}"

    def kept(self, state):
        for entity, cell in self.places():
            if not self.is_tag(entity, state.tag(entity.name, cell)):
                yield f"the tag of {called(entity.name, cell)}"
        for entity in self.interface.states:
            if not self.is_tag(entity, state.tag(entity.name)):
                yield f"the tag of the state {entity.name}"
        for parent, group in self.interface.groups.items():
            if state.registers[group.register] >= len(group.children):
                yield f"the current child of {parent or 'the root'}"
        for name, number in self.keeping.items():
            if state.registers.get(name, number) != number or any(cell != number for cell in state.memories.get(name, ())):
                yield f"{name}, which always has the number that it starts with"

    def is_tag(self, entity, code):
        level = self.level_of(code)
        return level is not None and (entity.is_dynamic or self.lattice.is_at_or_below(entity.authority, level))


def called(name, cell):
    return name if cell is None else f"{name}[{cell}]"
