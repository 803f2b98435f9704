"""Designs drawn at random. They are well formed; but now and then a memory is written twice in a cycle, which is E14."""

from dataclasses import dataclass, field

from .random_expressions import Expressions
from .tokens import KEYWORDS_OF_VERSION_2, tokens_of

MOST_STATES = 5
DEEPEST_STATES = 4
DEEPEST_BLOCKS = 3
# Names of entities that look like something else, in a design or in a module.
ODD_NAMES = ["sapper", "clk", "top", "module", "wire", "_", "n0", "c_1", "l_1", "v_x0", "t_x0", "s_0", "If", "an_entity_whose_name_is_of_forty_bytes__"]
ODD_NAMES_OF_VERSION_1 = ["then", "case"]


@dataclass(frozen=True)
class Made:
    """An input, a register or a memory of the design that is made."""

    name: str
    width: int
    is_dynamic: bool = True
    index_width: int = 0


@dataclass(eq=False)
class MadeState:
    """A state of it: the states of its group, those above it, its children, and the memories that may be written before its body."""

    name: str
    kind: str
    is_dynamic: bool
    level: object
    group: list
    above: list
    children: list = field(default_factory=list)
    written: set = field(default_factory=set)


class Designs:
    """Draws one design of a version over a lattice: first what it declares, then its tree of states, then their bodies."""

    def __init__(self, draw, lattice, version):
        self.draw = draw
        self.lattice = lattice
        self.version = version
        self.levels = [name for name in lattice.names if version == 1 or name not in KEYWORDS_OF_VERSION_2]
        self.odd_names = self.some_odd_names()
        self.names = set()
        self.widths = [draw.choice((1, 2, 2, 3, 4, 8, 64, draw.randint(1, 64))) for _ in range(2)]
        self.few_levels = [self.lattice.bottom, *(draw.choice(lattice.levels) for _ in range(3))]
        self.declarations = []
        self.inputs, self.registers, self.memories = [], [], []
        self.states = []

    def some_odd_names(self):
        if self.draw.random() < 0.7:
            return []
        names = ODD_NAMES + self.levels + (ODD_NAMES_OF_VERSION_1 if self.version == 1 else [])
        return self.draw.sample(sorted(set(names)), 4)

    def text(self):
        """The text of the design."""
        self.declare()
        group = self.group(1, [])
        body = Bodies(self.draw, self).lines_of_group(group)
        first = ["sapper 2;"] if self.version == 2 else []
        return indented(first + self.declarations + body)

    # Names, kinds and declarations.

    def name(self, usual):
        """The usual name, or an odd one."""
        name = self.odd_names.pop() if self.odd_names and self.draw.random() < 0.4 else usual
        while name in self.names:
            name += "_"
        self.names.add(name)
        return name

    def level(self):
        """Mostly one of a few levels, so that one entity often has that of another."""
        usual = [self.lattice.names[level] for level in self.few_levels]
        return self.draw.choice([name for name in usual * 2 if name in self.levels] + [self.draw.choice(self.levels)])

    def kind(self, level=None):
        """A kind, and whether it is dynamic. An enforced one is of this level, or of any."""
        if self.draw.random() < 0.45:
            return "dynamic", True
        level, authority = level or self.level(), self.level()
        number = self.lattice.number
        has_authority = self.draw.random() < 0.7 and self.lattice.is_at_or_below(number[authority], number[level])
        return f"enforced {level}" + (f" under {authority}" if has_authority else ""), False

    def width(self):
        """One of a few widths, so that one entity often has that of another."""
        return self.draw.choice([1, *self.widths])

    def declare(self):
        for number in range(self.draw.choice((1, 2, 2, 3, 3) if self.draw.random() < 0.95 else (0,))):
            self.declare_input(f"i{number}")
        for number in range(self.draw.randint(2, 7)):
            self.declare_register(f"x{number}")
        for number in range(self.draw.choice((0, 0, 1, 1, 2))):
            self.declare_memory(f"m{number}")
        self.draw.shuffle(self.declarations)

    def declare_input(self, usual):
        made = Made(self.name(usual), self.width())
        self.inputs.append(made)
        self.declarations.append(f"input {made.name} : {made.width};")

    def declare_register(self, usual):
        kind, is_dynamic = self.kind()
        made = Made(self.name(usual), self.width(), is_dynamic)
        start = f" = {self.draw.randrange(2**made.width)}" if self.draw.random() < 0.4 else ""
        self.registers.append(made)
        self.declarations.append(f"reg {made.name} : {made.width} {kind}{start};")

    def declare_memory(self, usual):
        kind, is_dynamic = self.kind()
        made = Made(self.name(usual), self.width(), is_dynamic, self.draw.choice((1, 1, 1, 2, 2, 3) if self.draw.random() < 0.9 else (12,)))
        self.memories.append(made)
        self.declarations.append(f"mem {made.name} : {made.width}[{2**made.index_width}] {kind};")

    # The tree of states.

    def group(self, depth, above):
        """A group of states at a depth, with all below them. Most of those that are enforced are of one level, so that they can be left and entered."""
        group, level = [], self.level_of_group(above)
        for _ in range(self.draw.choice((1, 2, 2, 2, 3, 3))):
            group.append(self.state(depth, group, above, level if self.draw.random() < 0.7 else None))
        return group

    def level_of_group(self, above):
        """Mostly at or above the level of the state above."""
        lattice = self.lattice
        level = lattice.number[self.level()] if self.draw.random() < 0.3 else lattice.bottom
        name = lattice.names[lattice.join(level, *(lattice.number[state.level] for state in above if state.level))]
        return name if name in self.levels else None

    def state(self, depth, group, above, level):
        kind, is_dynamic = self.kind(level)
        made = MadeState(self.name(f"S{len(self.states)}"), kind, is_dynamic, None if is_dynamic else level, group, above)
        self.states.append(made)
        if depth < DEEPEST_STATES and len(self.states) < MOST_STATES and self.draw.random() < 0.5:
            made.children = self.group(depth + 1, [*above, made])
        return made


class Bodies:
    """Draws the bodies of the states. Each method answers lines of text."""

    def __init__(self, draw, design):
        self.draw = draw
        self.design = design
        self.expressions = Expressions(draw, design.inputs * 2 + design.registers, design.memories, design.levels)
        self.state = None
        self.written = set()

    def lines_of_group(self, group):
        return [line for state in group for line in self.lines_of_state(state)]

    def lines_of_state(self, state):
        self.state = state
        self.written = state.written
        body = self.closing(0)
        return [f"state {state.name} {state.kind} {{", *body, *self.lines_of_group(state.children), "}"]

    # Lists of commands.

    def open(self, depth):
        """A list without a transfer, longer where it stands higher."""
        lines = []
        for _ in range(self.draw.choice(((1, 2, 3, 4), (0, 1, 2), (0, 1, 1))[min(depth, 2)])):
            lines += self.open_command(depth)
        return lines

    def closing(self, depth):
        """A list with a transfer at the end of each way through it."""
        lines = self.open(depth)
        selections = self.selections(depth)
        # a state with children mostly has ways on which it is left, and others on which it isn't
        if selections and self.draw.random() < (0.7 if self.state.children and depth == 0 else 0.35):
            return lines + self.draw.choice(selections)(self.closing, depth)
        return lines + self.transfer(depth)

    def open_command(self, depth):
        selections = self.selections(depth)
        if selections and self.draw.random() < 0.3:
            return self.draw.choice([self.if_without_else, *selections])(self.open, depth)
        command, may_be_refused = self.simple()
        return self.with_handler(command, may_be_refused, self.open, depth)

    def selections(self, depth):
        """The commands with blocks that may stand here."""
        if depth == DEEPEST_BLOCKS:
            return []
        return [self.if_else] if self.design.version == 1 else [self.if_else, self.case, self.then]

    # Commands with blocks, which `make` makes.

    def blocks(self, count, make, depth):
        """So many blocks side by side: what is written in one of them may be written behind them."""
        before, behind, blocks = self.written, set(), []
        for _ in range(count):
            self.written = before
            blocks.append(make(depth + 1))
            behind |= self.written
        self.written = behind
        return blocks

    def if_else(self, make, depth):
        condition = self.expressions.expression(1)
        first, second = self.blocks(2, make, depth)
        return [f"if ({condition}) {{", *first, "} else {", *second, "}"]

    def if_without_else(self, make, depth):
        condition, before = self.expressions.expression(1), self.written
        (only,) = self.blocks(1, make, depth)
        self.written = self.written | before
        return [f"if ({condition}) {{", *only, "}"]

    def then(self, make, depth):
        command = self.refusable()
        if command is None:
            return make(depth)
        accepted, refused = self.blocks(2, make, depth)
        return [f"{command} then {{", *accepted, "} otherwise {", *refused, "}"]

    def case(self, make, depth):
        width = self.draw.choice((1, 2, 2, 3, self.expressions.any_width()))
        subject = self.expressions.expression(width, own=True)
        *blocks, last = self.blocks(self.draw.choice((2, 2, 3, 4)), make, depth)
        arms = [[f"{self.constants(width)}: {{", *block, "}"] for block in blocks]
        return [f"case ({subject}) {{", *(line for arm in arms for line in arm), "else {", *last, "}", "}"]

    def constants(self, width):
        draws = (self.expressions.number, self.expressions.sized)
        return ", ".join(self.draw.choice(draws)(width) for _ in range(self.draw.choice((1, 1, 2, 3))))

    def with_handler(self, command, may_be_refused, make, depth):
        """A simple command, now and then with a handler."""
        if depth == DEEPEST_BLOCKS or not may_be_refused or self.draw.random() < 0.6:
            return [f"{command};"]
        before = self.written
        handler = make(depth + 1)
        self.written = self.written | before
        return [f"{command} otherwise {{", *handler, "}"]

    # Simple commands, each with whether it may be refused.

    def transfer(self, depth):
        if self.state.children and self.draw.random() < 0.5:
            command, may_be_refused = "fall", any(not child.is_dynamic for child in self.state.children)
            for child in self.state.children:
                child.written |= self.written
        else:
            target = self.draw.choice([state for state in self.state.group if state is not self.state or self.draw.random() < 0.1] or self.state.group)
            command, may_be_refused = f"goto {target.name}", not (target.is_dynamic and self.state.is_dynamic)
        return self.with_handler(command, may_be_refused, self.closing, depth)

    def refusable(self):
        """A simple command that may be refused, if a few draws find one."""
        draws = (self.simple() for _ in range(5))
        return next((command for command, may_be_refused in draws if may_be_refused), None)

    def simple(self):
        chance = self.draw.random()
        if chance < 0.25:
            return self.write()
        if chance < 0.45:
            return self.draw.choice((self.set_register_tag, self.set_register_tag, self.set_cell_tag, self.set_state_tag))()
        return self.assignment()

    def assignment(self):
        register = self.draw.choice(self.design.registers)
        return f"{register.name} := {self.expressions.expression(register.width)}", not register.is_dynamic

    # These are drawn as an assignment where there is nothing that they may be used on.

    def memory(self, may_be_dynamic):
        """A memory that isn't written on a way to here; seldom any."""
        memories = [memory for memory in self.design.memories if may_be_dynamic or not memory.is_dynamic]
        if self.draw.random() > 0.005:
            memories = [memory for memory in memories if memory.name not in self.written]
        if not memories:
            return None
        memory = self.draw.choice(memories)
        self.written = self.written | {memory.name}
        return memory

    def write(self):
        memory = self.memory(may_be_dynamic=True)
        if memory is None:
            return self.assignment()
        index, value = self.expressions.expression(memory.index_width), self.expressions.expression(memory.width)
        return f"{memory.name}[{index}] := {value}", not memory.is_dynamic

    def set_register_tag(self):
        enforced = [register for register in self.design.registers if not register.is_dynamic]
        if not enforced:
            return self.assignment()
        return f"setTag({self.draw.choice(enforced).name}, {self.expressions.tag_expression()})", True

    def set_cell_tag(self):
        memory = self.memory(may_be_dynamic=False)
        if memory is None:
            return self.assignment()
        return f"setTag({memory.name}[{self.expressions.expression(memory.index_width)}], {self.expressions.tag_expression()})", True

    def set_state_tag(self):
        """Not of a state that is active with this one."""
        apart = [state for state in self.design.states if self.state not in (state, *state.above) and state not in self.state.above]
        enforced = [state for state in apart if not state.is_dynamic]
        if not enforced:
            return self.assignment()
        return f"setTag({self.draw.choice(enforced).name}, {self.expressions.tag_expression()})", True


# Layouts.


def indented(lines):
    """The lines with two spaces for each open brace."""
    depth, text = 0, ""
    for line in lines:
        depth -= line.startswith("}")
        text += "  " * depth + line + "\n"
        depth += line.endswith("{")
    return text


def scattered(draw, text):
    """The same tokens with one space between them, and now and then other white space or a comment."""
    spaces = [" "] * 50 + ["\n"] * 10 + ["\t", "\r\n", "  \n ", "// a comment := {\n", "\n//\n"]
    return "".join(draw.choice(spaces) + token.text for token in tokens_of(text)) + draw.choice(("", "\n", "// the end"))
