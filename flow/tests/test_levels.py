"""What lint takes for certain of levels and states, beside runs of designs that are drawn at random, by the independent model of the language."""
import random
import unittest

from common.tags import Contexts
from common.warnings import Warnings
from model.cases import case_of
from model.random_streams import random_stream
from model.run import Run
from model.tree import Input, Memory, Register

SEEDS = 60


class Logged(Run):
    """A run that keeps of each command that is reached its context, and of each that may be refused whether it was."""

    def __init__(self, design):
        super().__init__(design)
        self.contexts, self.accepted, self.refused, self.entered = {}, set(), set(), set()

    def command(self, command, context, state):
        self.contexts.setdefault(command.place, set()).add(context)
        self.entered.add(state.name.text)
        super().command(command, context, state)

    def check(self, simple, context, state):
        check = super().check(simple, context, state)
        (self.accepted if check.holds else self.refused).add(simple.place)
        return check


class Part:
    """What the warnings take of a design."""

    def __init__(self, design):
        tree, lattice = design.tree, design.lattice
        self.path, self.tree, self.sites = "d.sapper", tree, []
        self.codes = {name: lattice.code(level) for name, level in lattice.number.items()}
        self.inputs, self.registers, self.memories = ([one for one in tree.declarations if isinstance(one, sort)] for sort in (Input, Register, Memory))


class Levels(unittest.TestCase):
    def test_contexts_and_refusals(self):
        always = held = 0
        for seed in range(1, SEEDS + 1):
            design = case_of(seed).design
            part, code, draw = Part(design), design.lattice.code, random.Random(seed)
            run = Logged(design)
            inputs = design.of_sort(Input)
            for _ in range(4):
                for fields in random_stream(draw, inputs, design.lattice):
                    run.cycle({one.name: field for one, field in zip(inputs, fields)})
            found = Contexts(design.tree, part.codes)
            for command, context, state in found.found:
                for level in run.contexts.get(command.place, ()):
                    held += bool(context)
                    self.assertEqual(context & ~code(level), 0, (seed, command.place))
                if command.simple is not None and command.place in design.site_at and found.tags.refusal(command.simple, context, state):
                    always += command.place in run.refused
                    self.assertNotIn(command.place, run.accepted, (seed, command.place))
            warnings = Warnings(part, None)
            warnings.entries()
            for one in warnings.warnings:
                names = one.text.split(":")[0].removeprefix("nothing enters the state ").split(", ")
                self.assertEqual(run.entered & set(names), set(), (seed, one.text))
        # (that there was something to compare)
        self.assertGreater(always, 20)
        self.assertGreater(held, 100)
