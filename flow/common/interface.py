"""What a module has of a design or of the parts of a system, by the names of the module."""
from dataclasses import dataclass

from .designs import parts_of
from .program import Stop


@dataclass(frozen=True)
class Refusal:
    """A check site with its wires in the module and the name by which a designer knows it."""

    name: str
    wire: str
    level: str
    place: str

    @property
    def level_name(self):
        """The name of its level: no name of a refusal begins so."""
        return "level" + self.name.removeprefix("refused")


class Interface:
    def __init__(self, lattice, path):
        self.path, self.parts = path, parts_of(lattice, path)
        self.codes = self.parts[0].codes
        self.tag_width = max(1, max(self.codes.values()).bit_length())
        self.registers = self.names("registers")
        self.memories = {part.prefix + memory.name.text: memory for part in self.parts for memory in part.memories}
        self.refusals = refusals(self.parts)

    def names(self, sort):
        """Names and declared widths of a sort of all parts."""
        return {part.prefix + one.name.text: one.width.value for part in self.parts for one in getattr(part, sort)}

    def inputs(self, module):
        """Names and widths of the inputs that the module has as ports: an input that a wire feeds is none."""
        return {name: width for name, width in self.names("inputs").items() if f"v_{name}" in module.widths}

    def check(self, module):
        """Stops where the module has not the registers, inputs and check sites of the design."""
        fed = len(self.parts) > 1 or self.parts[0].prefix
        for name, width in self.names("inputs").items():
            if not fed or f"v_{name}" in module.widths:
                module.need(f"v_{name}", "input", width)
                module.need(f"t_{name}", "input", self.tag_width)
        for name, width in self.registers.items():
            module.need(f"v_{name}", "output", width)
            module.need(f"t_{name}", "output", self.tag_width)
        for refusal in self.refusals:
            module.need(refusal.wire, "output", 1)
            module.need(refusal.level, "output", self.tag_width)
        known = 2 * (len(self.inputs(module)) + len(self.registers) + len(self.refusals))
        if known != len(module.ports):
            raise Stop(f"{module.path} isn't the module of this design: it has {len(module.ports) - known} ports more", 5)


def refusals(parts):
    """The refusals of all parts. The first site of a kind and entity has both as its name, each further one also its number among them."""
    found = []
    for part in parts:
        seen, named = {}, {f"refused_{site.kind}_{part.prefix}{site.entity}" for site in part.sites}
        for site in part.sites:
            name = f"refused_{site.kind}_{part.prefix}{site.entity}"
            count = seen[name] = seen.get(name, 0) + 1
            own = name if count == 1 else f"{name}_{count}"
            while count > 1 and own in named:
                own += "_"
            named.add(own)
            found.append(Refusal(own, f"c_{part.prefix}{site.number}", f"l_{part.prefix}{site.number}", f"{part.path}:{site.line}:{site.column}"))
    return found
