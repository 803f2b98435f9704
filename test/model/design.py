"""A well-formed design over a lattice: its entities, its check sites, its points, and what hangs on its commands."""

from dataclasses import dataclass

from .names import declared_names
from .parser import tree_of
from .shape import first_fault, homes, is_dynamic, is_refusable
from .tree import Assign, Case, Enforced, Fall, Goto, If, Input, Otherwise, Register, SetTag, State, Then, Write, commands_in, states_below
from .widths import Widths, index_width


@dataclass(frozen=True)
class Entity:
    """An entity with its levels as numbers. What a sort of entity doesn't have is None; the level of a dynamic entity is the one it starts with."""

    name: str
    sort: type
    width: object
    index_width: object
    start: int
    is_dynamic: bool
    level: int
    authority: int


@dataclass(frozen=True)
class Site:
    """A check site: its place, kind and name in the report."""

    place: tuple
    kind: str
    name: str


@dataclass(frozen=True)
class Point:
    """A word on which entities hang."""

    place: tuple
    word: str
    entities: frozenset


def design_of(text, lattice):
    """The design of a text, or its first fault."""
    tree = tree_of(text)
    fault = first_fault(tree, lattice)
    if fault:
        raise fault
    return Design(tree, lattice)


class Design:
    """A tree without a fault, and what its rules are told of."""

    def __init__(self, tree, lattice):
        self.tree = tree
        self.lattice = lattice
        self.declared = declared_names(tree)
        self.widths = Widths(self.declared)
        self.entities = {name: self.entity(name, declared) for name, declared in self.declared.items()}
        self.home = {state.name.text: (group, above[-1] if above else None) for group, above, state in homes(tree.states)}
        self.sites = sorted(self.sites_of_bodies(), key=lambda site: site.place)
        self.site_at = {site.place: number for number, site in enumerate(self.sites, 1)}
        self.hanging = {command.place: self.hangs_on(command, state) for state in self.states() for command in commands_in(state.body)}
        self.hanging_on_root = self.entered_from(tree.states)

    def entity(self, name, declared):
        level, authority = self.levels_of(getattr(declared, "kind", None))
        return Entity(
            name=name,
            sort=type(declared),
            width=None if isinstance(declared, State) else declared.width.value,
            index_width=index_width(declared),
            start=declared.start.value if isinstance(declared, Register) and declared.start else 0,
            is_dynamic=not isinstance(declared, Input) and is_dynamic(declared),
            level=level,
            authority=authority,
        )

    def levels_of(self, kind):
        """The level and the authority that a kind says; bottom for what it doesn't."""
        bottom = self.lattice.bottom
        if not isinstance(kind, Enforced):
            return bottom, bottom
        return self.lattice.number[kind.level.text], self.lattice.number[kind.authority.text] if kind.authority else bottom

    def of_sort(self, sort):
        """The entities of a sort, in the order of declaration."""
        return [entity for entity in self.entities.values() if entity.sort is sort]

    def states(self):
        return states_below(self.tree.states)

    # Check sites.

    def sites_of_bodies(self):
        for state in self.states():
            for command in commands_in(state.body):
                if command.simple is not None and is_refusable(command.simple, self.declared, state):
                    yield self.site(command.simple, state)

    def site(self, simple, state):
        match simple:
            case Assign(target=target) | Write(target=target):
                return Site(simple.place, "write", target.text)
            case SetTag(target=target):
                return Site(simple.place, "setTag", target.text)
            case Goto(target=target):
                return Site(simple.place, "goto", target.text)
            case Fall():
                return Site(simple.place, "fall", state.name.text)

    # What hangs on commands: names of dynamic entities.

    def dynamic(self, names):
        return frozenset(name for name in names if self.entities[name].is_dynamic)

    def assigned_in(self, block):
        """The registers and memories that are assigned in a block."""
        simple_commands = (command.simple for command in commands_in(block))
        return {simple.target.text for simple in simple_commands if isinstance(simple, (Assign, Write))}

    def entered_from(self, group):
        """What a fall into a group touches: its states, and what is assigned in their bodies and in those below."""
        names = {child.name.text for child in group}
        return self.dynamic(names.union(*(self.assigned_in(state.body) for state in states_below(group))))

    def hangs_on_simple(self, simple, state):
        match simple:
            case Assign(target=target) | Write(target=target):
                return self.dynamic({target.text})
            case Goto():
                return self.dynamic({state.name.text})
            case Fall():
                return self.entered_from(state.children)
        return frozenset()

    def hangs_on(self, command, state):
        """What hangs on a command in the body of a state: on its simple command, and on those in its blocks."""
        own = self.hangs_on_simple(command.simple, state)
        return own.union(*(self.hangs_on(inner, state) for block in command.blocks() for inner in block.commands))

    # Points.

    def points(self):
        """Every `if`, `otherwise`, `fall`, `then` and `case`, in the order of these words; the `otherwise` behind a `then` is none."""
        found = [point for state in self.states() for command in commands_in(state.body) for point in self.points_of(command, state)]
        return sorted(found, key=lambda point: point.place)

    def points_of(self, command, state):
        words = {If: "if", Case: "case", Otherwise: "otherwise", Then: "then"}
        if type(command) in words:
            yield Point(command.word, words[type(command)], self.hanging[command.place])
        if isinstance(command.simple, Fall):
            yield Point(command.simple.place, "fall", self.hangs_on_simple(command.simple, state))
