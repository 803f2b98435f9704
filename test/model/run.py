"""The labelled meaning: what a design does in a cycle."""

from dataclasses import dataclass
from typing import Callable, NamedTuple

from .expressions import Evaluator, Tagged
from .tree import Assign, Case, Fall, Goto, If, Memory, Otherwise, Plain, Register, SetTag, State, Then, Write


class Refusal(NamedTuple):
    """A refused check site, by its number, and the level of the refusal."""

    site: int
    level: int


@dataclass
class Contents:
    """The cells of a memory, with the one tag of a dynamic memory or a tag for each cell of an enforced one."""

    values: list
    levels: list
    whole: int

    def copy(self):
        return Contents(list(self.values), list(self.levels), self.whole)


class Check(NamedTuple):
    """A simple command at its turn: whether its test holds, its guard, and its effect where it does."""

    holds: bool
    guard: int
    effect: Callable


class Run:
    """A run of a design: the state of it between cycles, and the next cycle."""

    def __init__(self, design):
        self.design = design
        self.lattice = design.lattice
        self.evaluator = Evaluator(design, self)
        self.inputs = {}
        self.refusals = []
        self.registers = {one.name: Tagged(one.start, one.level) for one in design.of_sort(Register)}
        self.memories = {one.name: self.first_contents(one) for one in design.of_sort(Memory)}
        self.next_memories = {}
        self.tags = {one.name: one.level for one in design.of_sort(State)}
        self.current = {None: 0, **{state.name.text: 0 for state in design.states() if state.children}}

    def first_contents(self, memory):
        depth = 2**memory.index_width
        return Contents([0] * depth, [memory.level] * depth, self.lattice.bottom)

    def cycle(self, inputs):
        """One cycle on what the inputs get, by name. Answers the refusals, in the order of the sites."""
        self.inputs = inputs
        self.next_memories = {name: contents.copy() for name, contents in self.memories.items()}
        self.refusals = []
        states = self.design.tree.states
        entered = states[self.current[None]]
        context = self.tags[entered.name.text]
        self.raise_tags(self.design.hanging_on_root, context)
        self.block(entered.body, context, entered)
        self.memories = self.next_memories
        return self.refusals

    # What expressions read: registers as they are now, memories as they were at the start of the cycle.

    def read(self, name):
        return self.inputs[name] if name in self.inputs else self.registers[name]

    def cell(self, name, index):
        contents = self.memories[name]
        return Tagged(contents.values[index], contents.whole if self.is_dynamic(name) else contents.levels[index])

    def is_dynamic(self, name):
        return self.design.entities[name].is_dynamic

    # Commands.

    def block(self, block, context, state):
        for command in block.commands:
            self.command(command, context, state)

    def command(self, command, context, state):
        match command:
            case If(condition=condition):
                self.choose(command, self.evaluator.evaluate(condition, 1), context, state)
            case Case(subject=subject):
                self.choose(command, self.evaluator.evaluate(subject), context, state)
            case _:
                self.attempt(command, context, state)

    def choose(self, command, chosen_by, context, state):
        """`if` and `case`: what hangs is raised, whichever block runs."""
        self.raise_tags(self.design.hanging[command.place], chosen_by.level)
        block = chosen_block(command, chosen_by.value)
        if block is not None:
            self.block(block, self.lattice.join(context, chosen_by.level), state)

    def attempt(self, command, context, state):
        """Test and guard first; then raises; then the effect, and what `then` has behind it, or what is for a refusal."""
        check = self.check(command.simple, context, state)
        inside = self.lattice.join(context, check.guard)
        self.raise_tags(self.raised_by(command), check.guard)
        if check.holds:
            check.effect()
            if isinstance(command, Then):
                self.block(command.accepted, inside, state)
            return
        self.refusals.append(Refusal(self.design.site_at[command.simple.place], inside))
        if isinstance(command, Otherwise):
            self.block(command.handler, inside, state)
        if isinstance(command, Then):
            self.block(command.refused, inside, state)

    def raised_by(self, command):
        """What the guard raises: where nothing is for a refusal, it is what hangs on a transfer alone."""
        if isinstance(command, Plain) and not isinstance(command.simple, (Goto, Fall)):
            return frozenset()
        return self.design.hanging[command.place]

    def raise_tags(self, names, level):
        join = self.lattice.join
        for name in names:
            if name in self.registers:
                value, old = self.registers[name]
                self.registers[name] = Tagged(value, join(old, level))
            elif name in self.next_memories:
                memory = self.next_memories[name]
                memory.whole = join(memory.whole, level)
            else:
                self.tags[name] = join(self.tags[name], level)

    # Simple commands: test, guard and effect.

    def check(self, simple, context, state):
        match simple:
            case Assign():
                return self.check_assign(simple, context)
            case Write():
                return self.check_write(simple, context)
            case SetTag(index=None):
                return self.check_set_tag(simple, context)
            case SetTag():
                return self.check_set_cell_tag(simple, context)
            case Goto():
                return self.check_goto(simple, context, state)
            case Fall():
                return self.check_fall(context, state)

    def check_assign(self, simple, context):
        name = simple.target.text
        value, level = self.evaluator.evaluate(simple.value, self.design.entities[name].width)
        reached = self.lattice.join(context, level)
        held = self.registers[name].level

        def effect():
            self.registers[name] = Tagged(value, reached if self.is_dynamic(name) else held)

        if self.is_dynamic(name):
            return Check(True, self.lattice.bottom, effect)
        return Check(self.lattice.is_at_or_below(reached, held), held, effect)

    def check_write(self, simple, context):
        name = simple.target.text
        memory = self.design.entities[name]
        index = self.evaluator.evaluate(simple.index, memory.index_width)
        value, level = self.evaluator.evaluate(simple.value, memory.width)
        reached = self.lattice.join(context, index.level, level)

        def effect():
            self.next_memories[name].values[index.value] = value
            if memory.is_dynamic:
                self.raise_tags({name}, reached)

        if memory.is_dynamic:
            return Check(True, self.lattice.bottom, effect)
        held = self.memories[name].levels[index.value]
        return Check(self.lattice.is_at_or_below(reached, held), self.lattice.join(index.level, held), effect)

    def check_set_tag(self, simple, context):
        name = simple.target.text
        told = self.evaluator.tell(simple.tag)

        def effect():
            if name in self.registers:
                value, old = self.registers[name]
                self.registers[name] = Tagged(self.kept(value, old, told.level), told.level)
            else:
                self.tags[name] = told.level

        return self.check_retagging(name, told.level, self.lattice.join(context, told.information), effect)

    def check_set_cell_tag(self, simple, context):
        name = simple.target.text
        told = self.evaluator.tell(simple.tag)
        index = self.evaluator.evaluate(simple.index, self.design.entities[name].index_width)
        value, old = self.cell(name, index.value)

        def effect():
            contents = self.next_memories[name]
            contents.values[index.value] = self.kept(value, old, told.level)
            contents.levels[index.value] = told.level

        return self.check_retagging(name, told.level, self.lattice.join(context, told.information, index.level), effect)

    def check_retagging(self, name, level, information, effect):
        authority = self.design.entities[name].authority
        holds = self.lattice.is_at_or_below(information, authority) and self.lattice.is_at_or_below(authority, level)
        return Check(holds, authority, effect)

    def kept(self, value, old, new):
        """The value behind a retagging: a tag that isn't raised takes it with it."""
        return value if self.lattice.is_at_or_below(old, new) else 0

    def check_goto(self, simple, context, state):
        target, source = simple.target.text, state.name.text
        is_dynamic = self.is_dynamic(target)
        guard = self.lattice.bottom if is_dynamic else self.design.entities[target].authority
        enters = is_dynamic or self.lattice.is_at_or_below(context, self.tags[target])
        leaves = self.is_dynamic(source) or self.lattice.is_at_or_below(self.lattice.join(context, guard), self.tags[source])
        return Check(enters and leaves, guard, lambda: self.go(target, source, context))

    def go(self, target, source, context):
        group, parent = self.design.home[source]
        self.current[parent] = [one.name.text for one in group].index(target)
        if self.is_dynamic(target):
            self.tags[target] = context
        self.reset_below(self.design.declared[target])

    def reset_below(self, state):
        """Every group under a state returns to its first child; dynamic states under it get bottom."""
        if state.children:
            self.current[state.name.text] = 0
        for child in state.children:
            if self.is_dynamic(child.name.text):
                self.tags[child.name.text] = self.lattice.bottom
            self.reset_below(child)

    def check_fall(self, context, state):
        child = state.children[self.current[state.name.text]]
        name = child.name.text
        guard = self.tags[name]
        holds = self.is_dynamic(name) or self.lattice.is_at_or_below(context, guard)
        return Check(holds, guard, lambda: self.block(child.body, self.lattice.join(context, guard), child))


def chosen_block(command, value):
    """The block that an `if` or a `case` runs on a value; None where it has none."""
    if isinstance(command, If):
        return command.first if value else command.second
    for arm in command.arms:
        if value in [constant.value for constant in arm.constants]:
            return arm.block
    return command.last
