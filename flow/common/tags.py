"""What is known of levels before a design runs: for each expression and each command a level that its tag or context is never below.

A level is its code, a join an OR. An enforced entity that no `setTag` names keeps its declared tag; of all other tags nothing is known but that they are at
or above bottom, the code 0."""
from .designs import is_dynamic
from model.tree import (
    Assign, Case, Cell, Enforced, Fall, Goto, If, Input, JoinOf, LevelAt, LevelName, Otherwise, Read, SetTag, TagOf, Then, Write, commands_in, states_below,
)

BOTTOM = 0


def expressions_in(expression):
    """An expression with all that stand in it."""
    yield expression
    for name in ("operand", "index", "left", "right", "condition", "first", "second"):
        inner = getattr(expression, name, None)
        if inner is not None:
            yield from expressions_in(inner)
    for part in getattr(expression, "parts", ()):
        yield from expressions_in(part)


def own_expressions(command):
    """The outermost expressions of a command, those of its blocks aside."""
    one = command.simple
    if isinstance(command, If):
        yield command.condition
    elif isinstance(command, Case):
        yield command.subject
    elif isinstance(one, (Assign, Write)):
        yield one.value
    elif isinstance(one, SetTag):
        yield one.tag
    if isinstance(one, (Write, SetTag)) and one.index is not None:
        yield one.index


def commands_of(tree):
    for state in states_below(tree.states):
        yield from commands_in(state.body)


class Tags:
    """The least levels of a design's entities."""

    def __init__(self, tree, codes):
        self.codes = codes
        self.declared = {one.name.text: one for one in (*tree.declarations, *states_below(tree.states))}
        self.retagged = {command.simple.target.text for command in commands_of(tree) if isinstance(command.simple, SetTag)}

    def fixed(self, name):
        """The tag that an entity always has, if that is known."""
        declared = self.declared[name]
        if isinstance(declared, Input) or is_dynamic(declared) or name in self.retagged:
            return None
        return self.codes[declared.kind.level.text]

    def least(self, name):
        return self.fixed(name) or BOTTOM

    def authority(self, name):
        kind = self.declared[name].kind
        return self.codes[kind.authority.text] if isinstance(kind, Enforced) and kind.authority else BOTTOM

    def of(self, expression):
        """A level that the tag of an expression is never below."""
        level = BOTTOM
        for inner in expressions_in(expression):
            if isinstance(inner, (Read, Cell)):
                level |= self.least(inner.name.text)
        return level

    def of_information(self, tag):
        """The same for how a tag expression came about."""
        if isinstance(tag, LevelName):
            return BOTTOM
        if isinstance(tag, (TagOf, LevelAt)):
            return self.of(tag.operand)
        assert isinstance(tag, JoinOf)
        level = BOTTOM
        for part in tag.parts:
            level |= self.of_information(part)
        return level

    def guard(self, simple, state):
        """A level that the guard of a command is never below."""
        match simple:
            case Assign(target=target):
                return self.least(target.text)
            case Write(target=target, index=index):
                return self.of(index) | self.least(target.text)
            case SetTag(target=target) | Goto(target=target):
                return self.authority(target.text)
            case Fall():
                return self.below_all([self.least(child.name.text) for child in state.children])

    def below_all(self, levels):
        """The code of what lies below all of these; codes of levels below several are within each."""
        common = levels[0]
        for level in levels:
            common &= level
        return max((code for code in self.codes.values() if code | common == common), key=int.bit_count)

    def refusal(self, simple, context, state):
        """Why a command is refused whenever its context is at or above this level: what is too high, that level, and the level that it must be within.
        Nothing where it may be accepted."""
        for what, level, limits in self.tests(simple, context, state):
            if limits and all(level & ~limit for limit in limits):
                return what, level, max(limits, key=int.bit_count)
        return None

    def tests(self, simple, context, state):
        """What a command's test compares: what it is, a level that this is never below, and tags one of which it must be within, as far as they are known."""
        match simple:
            case Assign(target=target, value=value):
                yield from self.within(context, self.of(value), self.fixed(target.text))
            case Write(target=target, index=index, value=value):
                yield from self.within(context, self.of(index) | self.of(value), self.fixed(target.text))
            case SetTag(target=target, index=index, tag=tag):
                information = self.of_information(tag) | (BOTTOM if index is None else self.of(index))
                yield from self.within(context, information, self.authority(target.text))
                if isinstance(tag, LevelName):
                    yield "the authority", self.authority(target.text), [self.codes[tag.name.text]]
            case Goto(target=target):
                yield from self.within(context, BOTTOM, self.fixed(target.text))
                yield from self.within(context, self.authority(target.text), self.fixed(state.name.text), f"the authority of {target.text}")
            case Fall():
                tags = [self.fixed(child.name.text) for child in state.children]
                yield "what leads here", context, [] if None in tags else tags

    @staticmethod
    def within(context, level, limit, what="what it is made of"):
        """What leads to a command, and then what it is made of: their join is within the limit where both are."""
        limits = [] if limit is None else [limit]
        yield "what leads here", context, limits
        yield what, level, limits


class Contexts:
    """For each command a level that its context is never below, with its state."""

    def __init__(self, tree, codes):
        self.tags, self.found = Tags(tree, codes), []
        for state in tree.states:
            self.state(state, BOTTOM)

    def state(self, state, context):
        inside, before = context | self.tags.least(state.name.text), len(self.found)
        self.block(state.body, inside, state)
        falls = [within for command, within, _ in self.found[before:] if isinstance(command.simple, Fall)]
        for child in state.children:
            self.state(child, self.tags.below_all(falls or [inside]))

    def block(self, block, context, state):
        for command in block.commands:
            self.found.append((command, context, state))
            for inner in command.blocks():
                self.block(inner, context | self.within(command, state), state)

    def within(self, command, state):
        """What the context of a command's blocks has more."""
        if isinstance(command, If):
            return self.tags.of(command.condition)
        if isinstance(command, Case):
            return self.tags.of(command.subject)
        if isinstance(command, (Otherwise, Then)):
            return self.tags.guard(command.simple, state)
        return BOTTOM
