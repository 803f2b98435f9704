"""Modules to which tags are added, drawn at random: modules without tags, and such in which names are given that tags take."""

import re

from .modules import module_of
from .taints import tag_name

NAME = re.compile(r"\b[A-Za-z_]\w*\b")
LONG = 1_000


def without_tags(text):
    """A module whose names of tags, if it has such, give way to other names."""
    declared = module_of(text).widths
    return renamed(text, {name: free_name(f"u{name[1:]}", declared) for name in declared if name.startswith("t_")})


def free_name(name, taken):
    while name in taken:
        name += "_"
    return name


def renamed(text, names, module_name=None):
    """The same module under other names, some of them or its own."""
    head, own, rest = re.match(r"(.*?\bmodule\s+)(\w+)(.*)", text, re.DOTALL).groups()
    return head + (module_name or own) + NAME.sub(lambda found: names.get(found[0], found[0]), rest)


class Names:
    """The edits of a module's names. Each answers an edited text, which may clash or not."""

    def __init__(self, draw, text):
        self.draw = draw
        self.text = text
        self.declared = list(module_of(text).widths)

    def all(self):
        return [self.tag_of_another, self.tag_of_another, self.own_tag, self.one_tag_of_two, self.module_name, self.long_name, self.long_names_that_clash]

    def any_name(self):
        """The first, the last, or one between."""
        return self.draw.choice((self.declared[0], self.declared[-1], self.draw.choice(self.declared)))

    def with_names(self, names):
        """Where none of the new names is declared."""
        if not self.declared or {*names.values()} & {*self.declared}:
            return self.text
        return renamed(self.text, names)

    def tag_of_another(self):
        """A name is that of an earlier or later name's tag."""
        one = self.any_name()
        return self.with_names({self.any_name(): tag_name(one)})

    def own_tag(self):
        one = self.any_name()
        return self.with_names({one: f"t_{one}"})

    def one_tag_of_two(self):
        """Two names have tags of one name, which no declared name has."""
        one, other = self.any_name(), self.any_name()
        return self.text if one == other else self.with_names({other: f"v_{tag_name(one)[2:]}"})

    def module_name(self):
        """The module is called as one of its names, or as a name's tag."""
        one = self.any_name()
        return renamed(self.text, {}, self.draw.choice((one, tag_name(one))))

    def long_name(self):
        return self.with_names({self.any_name(): self.draw.choice(("", "v_", "t_")) + "x" * LONG})

    def long_names_that_clash(self):
        one, other = self.any_name(), self.any_name()
        return self.text if one == other else self.with_names({one: "x" * LONG, other: self.draw.choice(("v_", "t_")) + "x" * LONG})


def with_odd_names(draw, text):
    """One or two edits of a module's names."""
    for _ in range(draw.choice((1, 1, 2))):
        if module_of(text).widths:
            text = draw.choice(Names(draw, text).all())()
    return text
