"""The tree of a design. Two trees are the same where they differ in places alone: no place is compared."""

from dataclasses import dataclass, field


def uncompared():
    """A field with a place: a line and a column."""
    return field(compare=False)


@dataclass(frozen=True)
class Name:
    """A name where it stands."""

    text: str
    place: tuple = uncompared()


@dataclass(frozen=True)
class Numeral:
    """A number that is no expression: a declared width, depth or start."""

    value: int
    place: tuple = uncompared()


# Expressions. `start` is the place of the first token, which may be a parenthesis around the expression; `place` that of the token itself.


@dataclass(frozen=True)
class Number:
    """A number without a width."""

    start: tuple = uncompared()
    place: tuple = uncompared()
    value: int


@dataclass(frozen=True)
class Sized:
    """`8'd5`."""

    start: tuple = uncompared()
    place: tuple = uncompared()
    width: int
    value: int


@dataclass(frozen=True)
class Read:
    """What an input or a register holds."""

    start: tuple = uncompared()
    name: Name


@dataclass(frozen=True)
class Cell:
    """A cell of a memory."""

    start: tuple = uncompared()
    name: Name
    index: object


@dataclass(frozen=True)
class Unary:
    """`~ - & | ^` in front of an operand."""

    start: tuple = uncompared()
    sign: str
    operand: object


@dataclass(frozen=True)
class Binary:
    """An operator between two operands."""

    start: tuple = uncompared()
    sign: str
    left: object
    right: object


@dataclass(frozen=True)
class Choice:
    """`condition ? first : second`."""

    start: tuple = uncompared()
    condition: object
    first: object
    second: object


@dataclass(frozen=True)
class Slice:
    """`operand[high:low]`."""

    start: tuple = uncompared()
    operand: object
    high: int
    low: int


@dataclass(frozen=True)
class Concatenation:
    """`{ .. , .. }`, the first part highest."""

    start: tuple = uncompared()
    parts: tuple


@dataclass(frozen=True)
class Zext:
    """`zext(operand, width)`."""

    start: tuple = uncompared()
    operand: object
    width: int


# Tag expressions.


@dataclass(frozen=True)
class LevelName:
    """A level by its name."""

    name: Name


@dataclass(frozen=True)
class TagOf:
    """`tag(operand)`."""

    operand: object


@dataclass(frozen=True)
class LevelAt:
    """`level(operand)`."""

    operand: object


@dataclass(frozen=True)
class JoinOf:
    """`join(.. , ..)`."""

    parts: tuple


# Simple commands, each with the place of its first token.


@dataclass(frozen=True)
class Assign:
    """`target := value`."""

    place: tuple = uncompared()
    target: Name
    value: object


@dataclass(frozen=True)
class Write:
    """`target[index] := value`."""

    place: tuple = uncompared()
    target: Name
    index: object
    value: object


@dataclass(frozen=True)
class SetTag:
    """`setTag` of a register or state, or, with an index, of a cell of a memory."""

    place: tuple = uncompared()
    target: Name
    index: object
    tag: object


@dataclass(frozen=True)
class Goto:
    """`goto target`."""

    place: tuple = uncompared()
    target: Name


@dataclass(frozen=True)
class Fall:
    """`fall`."""

    place: tuple = uncompared()


# Commands. `word` is the place of `otherwise`, `then`, `if` or `case`.


@dataclass(frozen=True)
class Block:
    """A list of commands, and the place of the token after it."""

    commands: tuple
    after: tuple = uncompared()


class Attempt:
    """A command that begins with a simple command, which may be refused."""

    @property
    def place(self):
        """The place of the first token."""
        return self.simple.place


class Selection:
    """A command that begins with its word, and selects one of its blocks."""

    simple = None

    @property
    def place(self):
        return self.word


@dataclass(frozen=True)
class Plain(Attempt):
    """A simple command alone."""

    simple: object

    def blocks(self):
        return ()


@dataclass(frozen=True)
class Otherwise(Attempt):
    """`simple otherwise { handler }`."""

    simple: object
    word: tuple = uncompared()
    handler: Block

    def blocks(self):
        return (self.handler,)


@dataclass(frozen=True)
class Then(Attempt):
    """`simple then { accepted } otherwise { refused }`."""

    simple: object
    word: tuple = uncompared()
    accepted: Block
    refused: Block

    def blocks(self):
        return (self.accepted, self.refused)


@dataclass(frozen=True)
class If(Selection):
    """`if (condition) { first } else { second }`; without `else` the second block is None."""

    word: tuple = uncompared()
    condition: object
    first: Block
    second: object

    def blocks(self):
        return (self.first,) if self.second is None else (self.first, self.second)


@dataclass(frozen=True)
class Arm:
    """`constants: { block }`."""

    constants: tuple
    block: Block


@dataclass(frozen=True)
class Case(Selection):
    """`case (subject) { arms else { last } }`."""

    word: tuple = uncompared()
    subject: object
    arms: tuple
    last: Block

    def blocks(self):
        return (*(arm.block for arm in self.arms), self.last)


# Declarations, states and the whole.


@dataclass(frozen=True)
class Dynamic:
    """`dynamic`."""


@dataclass(frozen=True)
class Enforced:
    """`enforced level under authority`; where no authority is written it is None."""

    level: Name
    authority: object


@dataclass(frozen=True)
class Input:
    """`input name : width;`"""

    name: Name
    width: Numeral


@dataclass(frozen=True)
class Register:
    """`reg name : width kind = start;` where no start is written it is None."""

    name: Name
    width: Numeral
    kind: object
    start: object


@dataclass(frozen=True)
class Memory:
    """`mem name : width[depth] kind;`"""

    name: Name
    width: Numeral
    depth: Numeral
    kind: object


@dataclass(frozen=True)
class State:
    """A state with its body and the states below it."""

    name: Name
    kind: object
    body: Block
    children: tuple


@dataclass(frozen=True)
class Tree:
    """A whole design."""

    version: int
    declarations: tuple
    states: tuple


def states_below(states):
    """These states and all below them, in the order of declaration."""
    for state in states:
        yield state
        yield from states_below(state.children)


def commands_in(block):
    """All commands of a block, those in the blocks of commands included, in the order of the text."""
    for command in block.commands:
        yield command
        for inner in command.blocks():
            yield from commands_in(inner)
