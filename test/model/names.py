"""The faults of names and widths of a design, E3 to E9."""

from .tokens import Fault
from .tree import (
    Assign, Case, Cell, Concatenation, Enforced, Goto, If, Input, JoinOf, LevelAt, LevelName, Memory, Number, Read, Register, SetTag, Sized, Slice, State,
    TagOf, Write, Zext, commands_in, states_below,
)
from .widths import Widths, first_of, index_width, sound, width_of_entity

# What each use of a name asks it to be.
ASSIGNED = (Register,)
INDEXED = (Memory,)
READ = (Input, Register)
ENTERED = (State,)
RETAGGED = (Register, State)


def declared_names(tree):
    """Each declared name with its first declaration, or its state, in the order of declaration."""
    declared = {}
    for one in (*tree.declarations, *states_below(tree.states)):
        declared.setdefault(one.name.text, one)
    return declared


def name_faults(tree, lattice):
    """All faults of names and widths, in no order that counts."""
    return Names(tree, lattice).found()


class Names:
    def __init__(self, tree, lattice):
        self.tree = tree
        self.lattice = lattice
        self.declared = declared_names(tree)
        self.widths = Widths(self.declared)
        self.faults = []

    def found(self):
        self.names_declared_twice()
        for declaration in self.tree.declarations:
            self.declaration(declaration)
        for state in states_below(self.tree.states):
            self.kind(state.kind)
            for command in commands_in(state.body):
                self.command(command)
        return self.faults

    def fault_if(self, broken, code, place):
        if broken:
            self.faults.append(Fault(code, place))

    def names_declared_twice(self):
        for one in (*self.tree.declarations, *states_below(self.tree.states)):
            self.fault_if(self.declared[one.name.text] is not one, "E3", one.name.place)

    def use(self, name, sorts):
        """E4 for a name that is declared nowhere, E5 for one of the wrong kind. Answers what is declared."""
        declared = self.declared.get(name.text)
        self.fault_if(declared is None, "E4", name.place)
        self.fault_if(declared is not None and not isinstance(declared, sorts), "E5", name.place)
        return declared

    def level(self, name):
        """E6 for a level name that is no level. Answers the level."""
        level = self.lattice.number.get(name.text)
        self.fault_if(level is None, "E6", name.place)
        return level

    # Declarations.

    def declaration(self, declaration):
        self.fault_if(sound(declaration.width.value) is None, "E7", declaration.width.place)
        if isinstance(declaration, Memory):
            self.fault_if(index_width(declaration) is None, "E7", declaration.depth.place)
        if isinstance(declaration, (Register, Memory)):
            self.kind(declaration.kind)
        if isinstance(declaration, Register) and declaration.start is not None:
            self.too_large(declaration.start.value, sound(declaration.width.value), declaration.start.place)

    def kind(self, kind):
        """E9 stands at the level where the authority isn't at or below it."""
        if not isinstance(kind, Enforced):
            return
        level = self.level(kind.level)
        authority = None if kind.authority is None else self.level(kind.authority)
        known = level is not None and authority is not None
        self.fault_if(known and not self.lattice.is_at_or_below(authority, level), "E9", kind.level.place)

    # Commands.

    def command(self, command):
        match command:
            case If(condition=condition):
                self.expression(condition, 1)
            case Case(subject=subject, arms=arms):
                self.expression(subject, None)
                for constant in (constant for arm in arms for constant in arm.constants):
                    self.expression(constant, self.widths.own(subject))
            case _:
                self.simple(command.simple)

    def simple(self, simple):
        match simple:
            case Assign(target=target, value=value):
                self.expression(value, width_of_entity(self.use(target, ASSIGNED), Register))
            case Write(target=target, index=index, value=value):
                memory = self.use(target, INDEXED)
                self.expression(index, index_width(memory))
                self.expression(value, width_of_entity(memory, Memory))
            case SetTag(target=target, index=None, tag=tag):
                self.use(target, RETAGGED)
                self.tag_expression(tag)
            case SetTag(target=target, index=index, tag=tag):
                self.expression(index, index_width(self.use(target, INDEXED)))
                self.tag_expression(tag)
            case Goto(target=target):
                self.use(target, ENTERED)

    # Expressions.

    def tag_expression(self, tag):
        match tag:
            case LevelName(name=name):
                self.level(name)
            case TagOf(operand=operand) | LevelAt(operand=operand):
                self.expression(operand, None)
            case JoinOf(parts=parts):
                for part in parts:
                    self.tag_expression(part)

    def expression(self, expression, asked):
        """The faults of an expression whose place asks for a width, or for none."""
        own = self.widths.own(expression)
        differ = own is not None and asked is not None and own != asked
        self.fault_if(differ or (own is None and asked is None), "E7", expression.start)
        self.fault_if(own is None and self.has_sound_operands(expression), "E7", expression.start)
        self.token(expression, asked)
        for operand, width in self.widths.asked_of_operands(expression, first_of(own, asked)):
            self.expression(operand, width)

    def has_sound_operands(self, expression):
        """Whether this is a slice, a concatenation or a `zext` whose operands all have an own width."""
        match expression:
            case Slice(operand=operand) | Zext(operand=operand):
                return self.widths.own(operand) is not None
            case Concatenation(parts=parts):
                return all(self.widths.own(part) is not None for part in parts)
        return False

    def token(self, expression, asked):
        """What stands at a number or a name itself, also in parentheses."""
        match expression:
            case Number(value=value, place=place):
                self.too_large(value, asked, place)
            case Sized(width=width, value=value, place=place):
                self.fault_if(sound(width) is None, "E7", place)
                self.too_large(value, sound(width), place)
            case Read(name=name):
                self.use(name, READ)
            case Cell(name=name):
                self.use(name, INDEXED)

    def too_large(self, value, width, place):
        self.fault_if(width is not None and value >= 2**width, "E8", place)
