"""What is legal in a design and hardly meant."""
from dataclasses import dataclass

from . import designs  # noqa: F401  (it makes `model` known)
from .hints import is_doubled
from .program import read_design
from .tags import Contexts, commands_of, expressions_in, own_expressions
from model.tokens import tokens_of
from model.tree import Assign, Binary, Case, Cell, Fall, Goto, If, Number, Otherwise, Read, SetTag, Sized, Then, Write, commands_in, states_below
from model.widths import Widths, first_of, index_width

KINDS = {
    "sign": "`&&` and `||`, whose second sign reduces what is behind it to one bit",
    "always": "a command that is refused whenever it is reached",
    "context": "the same where already what leads to it is too high",
    "never": "a handler, or the `otherwise` of a `then`, of a command that is never refused",
    "unentered": "a state that nothing enters",
    "no-fall": "children of a state without `fall`",
    "unread": "an input, a memory or a register that nothing reads",
    "shift": "a number without a width that is shifted to the left, beyond the width of its place",
    "cell-tags": "a memory whose cells are retagged one by one",
}


def bits(count):
    return f"{count} bit" if count == 1 else f"{count} bits"


@dataclass(frozen=True)
class Warning:
    path: str
    place: tuple
    kind: str
    text: str

    def __str__(self):
        return f"{self.path}:{self.place[0]}:{self.place[1]}: warning: {self.text} [{self.kind}]"


class KeptWidths(Widths):
    """Widths that are looked up once for each expression of a tree: an operand's stand within those of all around it."""

    def __init__(self, declared):
        super().__init__(declared)
        self.kept = {}

    def own(self, expression):
        if id(expression) not in self.kept:
            self.kept[id(expression)] = super().own(expression)
        return self.kept[id(expression)]


class Warnings:
    """The warnings of a design, whose module tells what folding shows."""

    def __init__(self, part, module, kept=None):
        self.part, self.tree, self.module, self.kept = part, part.tree, module, kept
        self.contexts = Contexts(self.tree, part.codes)
        self.tags = self.contexts.tags
        self.names = {code: name for name, code in part.codes.items()}
        self.warnings = []

    def found(self):
        for looks in (self.signs, self.sites, self.entries, self.readers, self.shifts, self.cell_tags):
            looks()
        return sorted(self.warnings, key=lambda warning: warning.place)

    def warn(self, place, kind, text):
        self.warnings.append(Warning(self.part.path, place, kind, text))

    # Signs.

    def signs(self):
        tokens = tokens_of(read_design(self.part.path))
        for one, other in zip(tokens, tokens[1:]):
            if is_doubled(one, other):
                which = "all bits of b are ones" if one.text == "&" else "any bit of b is one"
                self.warn(one.place, "sign", f"`a {one.text * 2} b` is `a {one.text} ({one.text}b)`: whether {which}; write one `{one.text}`")

    # Check sites.

    def sites(self):
        constants = self.module.constants()
        numbers = {(site.line, site.column): site.number for site in self.part.sites}
        for command, context, state in self.contexts.found:
            number = numbers.get(command.place)
            if command.simple is None or number is None:
                continue
            refused = self.tags.refusal(command.simple, context, state)
            what = self.described(command.simple, state)
            if refused:
                self.always(command.place, what, *refused)
            elif constants.get(f"c_{number}") == 1:
                self.warn(command.place, "always", f"{what} is refused in every cycle")
            elif constants.get(f"c_{number}") == 0 and isinstance(command, (Otherwise, Then)):
                self.warn(command.word, "never", f"{what} is never refused, so what is behind `otherwise` never runs")

    def always(self, place, what, cause, level, limit):
        kind = "context" if cause == "what leads here" else "always"
        too_high = f"{cause} is never below {self.level(level)}, and its tag would have to be at or below {self.level(limit)}"
        self.warn(place, kind, f"{what} is refused whenever it is reached: {too_high}")

    def level(self, code):
        """The level of a code; a join of levels has one, too."""
        return self.names.get(code, f"code {code}")

    @staticmethod
    def described(simple, state):
        match simple:
            case Assign(target=target):
                return f"the write of {target.text}"
            case Write(target=target):
                return f"the write of a cell of {target.text}"
            case SetTag(target=target):
                return f"the `setTag` of {target.text}"
            case Goto(target=target):
                return f"the `goto` to {target.text}"
        return f"the `fall` of {state.name.text}"

    # States.

    def entries(self):
        self.group(self.tree.states)
        for state in states_below(self.tree.states):
            if state.children and not self.falls(state):
                names = ", ".join(child.name.text for child in state.children)
                self.warn(state.children[0].name.place, "no-fall", f"{names}: no child of {state.name.text} ever runs, since its body has no `fall`")
            elif state.children:
                self.group(state.children)

    @staticmethod
    def falls(state):
        return any(isinstance(command.simple, Fall) for command in commands_in(state.body))

    def group(self, states):
        """Warns of the states that no way of `goto` from the first one leads to."""
        known = {state.name.text: state for state in states}
        entered, waiting = set(), [states[0].name.text]
        while waiting:
            name = waiting.pop()
            if name in known and name not in entered:
                entered.add(name)
                waiting += [command.simple.target.text for command in commands_in(known[name].body) if isinstance(command.simple, Goto)]
        for name, state in known.items():
            if name not in entered:
                why = f"{states[0].name.text} is the first of its group, and no `goto` leads on to it"
                self.warn(state.name.place, "unentered", f"nothing enters the state {name}: {why}")

    # Readers.

    def readers(self):
        every = [expression for command in commands_of(self.tree) for outermost in own_expressions(command) for expression in expressions_in(outermost)]
        reads = {expression.name.text for expression in every if isinstance(expression, (Read, Cell))}
        for one in self.part.inputs:
            if one.name.text not in reads:
                self.warn(one.name.place, "unread", f"nothing reads the input {one.name.text}")
        for one in self.part.memories:
            if one.name.text not in reads:
                self.warn(one.name.place, "unread", f"nothing reads the memory {one.name.text}, which is no port")
        assigned = {command.simple.target.text for command in commands_of(self.tree) if isinstance(command.simple, Assign)}
        for one in self.part.registers:
            if one.name.text not in reads and self.is_inside(one.name.text, assigned):
                more = "" if one.name.text in assigned else ", and nothing writes it"
                self.warn(one.name.place, "unread", f"nothing reads the register {one.name.text}{more}")

    def is_inside(self, name, assigned):
        """Whether nobody outside looks at a register. Where it isn't said who does, nobody is taken to look at one that is never written."""
        return name not in assigned if self.kept is None else name not in self.kept

    # Shifts.

    def shifts(self):
        widths = KeptWidths(self.tags.declared)
        for command in commands_of(self.tree):
            for expression, asked in self.asked(command):
                self.shift(widths, expression, asked)

    def asked(self, command):
        """The outermost expressions of a command with the widths that their places ask for."""
        match command.simple or command:
            case If(condition=condition):
                yield condition, 1
            case Case(subject=subject):
                yield subject, None
            case Assign(target=target, value=value):
                yield value, self.tags.declared[target.text].width.value
            case Write(target=target, index=index, value=value):
                yield index, index_width(self.tags.declared[target.text])
                yield value, self.tags.declared[target.text].width.value
            case SetTag(target=target, index=index):
                if index is not None:
                    yield index, index_width(self.tags.declared[target.text])

    def shift(self, widths, expression, asked):
        width = first_of(widths.own(expression), asked)
        if isinstance(expression, Binary) and expression.sign == "<<" and widths.own(expression.left) is None and width is not None:
            self.lost(widths, expression, width)
        for operand, wanted in widths.asked_of_operands(expression, width):
            self.shift(widths, operand, wanted)

    def lost(self, widths, expression, width):
        """Warns where the highest count takes a bit of the number out of its place's width."""
        value = expression.left.value if isinstance(expression.left, Number) else 1
        count = expression.right
        most = count.value if isinstance(count, (Number, Sized)) else 2 ** (widths.own(count) or 64) - 1
        first = width - value.bit_length() + 1
        if value and most >= first:
            what = f"the number that is shifted has the {bits(width)} of its place, and loses some from a count of {max(first, 1)} on"
            self.warn(expression.start, "shift", f"{what}; if that is meant, write its width, as in `{width}'d{value} << n`")

    # Tags of cells.

    def cell_tags(self):
        for memory in self.part.memories:
            name, depth = memory.name.text, memory.depth.value
            retags = [command.simple for command in commands_of(self.tree) if isinstance(command.simple, SetTag) and command.simple.target.text == name]
            if retags:
                width = max(self.part.codes.values()).bit_length()
                place = f"{retags[0].place[0]}:{retags[0].place[1]}"
                what = f"the cells of {name} are retagged one by one ({place})"
                cost = f"their tags are a second memory of {depth} cells of {bits(width)}, read wherever {name} is"
                self.warn(memory.name.place, "cell-tags", f"{what}: {cost}; a memory for each owner has tags that never change, and cost nothing")
