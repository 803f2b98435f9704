"""The faults of shape of a design without faults of names and widths, E10 to E17, and the first fault of a design."""

from .names import declared_names, name_faults
from .tokens import Fault
from .tree import Assign, Dynamic, Fall, Goto, If, Otherwise, Plain, SetTag, Then, Write, commands_in, states_below

TRANSFERS = (Goto, Fall)


def first_fault(tree, lattice):
    """The first fault of a tree by phase, then by place, then by code; None where it is well formed."""
    faults = name_faults(tree, lattice) or shape_faults(tree)
    return min(faults, key=lambda fault: (fault.place, int(fault.code[1:])), default=None)


def shape_faults(tree):
    """All faults of shape, in no order that counts."""
    declared = declared_names(tree)
    faults = TwiceWritten(tree).found()
    for group, above, state in homes(tree.states):
        Closing(faults).must_close(state.body)
        Uses(faults, declared, group, above, state).body()
    return faults


def homes(group, above=()):
    """Each state with its group and the names of the states above it."""
    for state in group:
        yield group, above, state
        yield from homes(state.children, (*above, state.name.text))


def is_dynamic(declared):
    return isinstance(declared.kind, Dynamic)


def is_refusable(simple, declared, state):
    """Whether a simple command in the body of a state is a check site, that is, may be refused."""
    match simple:
        case Assign(target=target) | Write(target=target):
            return not is_dynamic(declared[target.text])
        case SetTag():
            return True
        case Goto(target=target):
            return not (is_dynamic(state) and is_dynamic(declared[target.text]))
        case Fall():
            return any(not is_dynamic(child) for child in state.children)


class Closing:
    """E10: a body must close, with a transfer at the end of each way through it and nowhere else."""

    def __init__(self, faults):
        self.faults = faults

    def fault(self, place):
        self.faults.append(Fault("E10", place))

    def must_close(self, block):
        for command in block.commands[:-1]:
            self.must_be_open(command)
        if block.commands:
            self.must_close_last(block.commands[-1], block.after)
        else:
            self.fault(block.after)

    def must_close_last(self, command, after):
        match command:
            case Then(simple=simple, word=word) if isinstance(simple, TRANSFERS):
                self.fault(word)
                return
            case Plain(simple=simple) | Otherwise(simple=simple) if not isinstance(simple, TRANSFERS):
                self.fault(after)
                self.blocks_must_be_open(command)
                return
            case If(word=word, second=None):
                self.fault(word)
        for block in command.blocks():
            self.must_close(block)

    def must_be_open(self, command):
        match command:
            case Then(simple=simple, word=word) if isinstance(simple, TRANSFERS):
                self.fault(word)
                return
            case Plain(simple=simple) | Otherwise(simple=simple) if isinstance(simple, TRANSFERS):
                self.fault(simple.place)
        self.blocks_must_be_open(command)

    def blocks_must_be_open(self, command):
        for block in command.blocks():
            for inner in block.commands:
                self.must_be_open(inner)


class Uses:
    """E11, E12 and E15 to E17 in the body of one state."""

    def __init__(self, faults, declared, group, above, state):
        self.faults = faults
        self.declared = declared
        self.group = {one.name.text for one in group}
        self.active = {*above, *(one.name.text for one in states_below((state,)))}
        self.state = state

    def fault_if(self, broken, code, place):
        if broken:
            self.faults.append(Fault(code, place))

    def body(self):
        for command in commands_in(self.state.body):
            if command.simple is not None:
                self.command(command)

    def command(self, command):
        """The `then` of a transfer has E10, and no E15."""
        self.simple(command.simple)
        if isinstance(command, Otherwise) or (isinstance(command, Then) and not isinstance(command.simple, TRANSFERS)):
            self.fault_if(not is_refusable(command.simple, self.declared, self.state), "E15", command.word)

    def simple(self, simple):
        match simple:
            case Goto(target=target):
                self.fault_if(target.text not in self.group, "E11", target.place)
            case Fall(place=place):
                self.fault_if(not self.state.children, "E12", place)
            case SetTag(target=target):
                self.fault_if(is_dynamic(self.declared[target.text]), "E16", target.place)
                self.fault_if(target.text in self.active, "E17", target.place)


class TwiceWritten:
    """E14: some path of a cycle comes to a write or `setTag` on a cell of a memory behind another one.

    What is known at a point of the text is, for each path that comes there, the set of memories written on it. As a second write is a
    fault by whichever path it is reached, the union of these sets tells as much.
    """

    def __init__(self, tree):
        self.states = tree.states
        self.faults = []

    def found(self):
        for state in self.states:
            self.block(state.body, frozenset(), state)
        return self.faults

    def block(self, block, written, state):
        for command in block.commands:
            written = self.command(command, written, state)
        return written

    def command(self, command, written, state):
        """What may be written behind a command, where this may be before it."""
        behind = written if command.simple is None else self.simple(command.simple, written, state)
        ways = [self.block(block, behind, state) for block in command.blocks()]
        goes_on_without_a_block = isinstance(command, (Plain, Otherwise)) or (isinstance(command, If) and command.second is None)
        return frozenset().union(*ways, behind if goes_on_without_a_block else ())

    def simple(self, simple, written, state):
        """Behind a `fall` are the paths on which it was refused: those that enter a child end there."""
        if isinstance(simple, Fall):
            for child in state.children:
                self.block(child.body, written, child)
        if isinstance(simple, Write) or (isinstance(simple, SetTag) and simple.index is not None):
            if simple.target.text in written:
                self.faults.append(Fault("E14", simple.place))
            return written | {simple.target.text}
        return written
