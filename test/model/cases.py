"""A case drawn from a seed: a lattice, a design, two stimuli and a level; and designs with a fault."""

import random
from dataclasses import dataclass, field

from .design import design_of
from .edits import Edits
from .lattice import lattice_of
from .random_designs import Designs, scattered
from .random_lattices import random_lattice
from .random_streams import other_stream, random_stream, text_of
from .streams import stream_of
from .tokens import Fault
from .tree import Input

EDITS_OF_A_CASE = 10


@dataclass
class Case:
    """The texts of the files, and what the model makes of them. `faulty` has texts with the fault of each, or None where an edit breaks no rule."""

    shape: str
    lattice_text: str
    text: str
    design: object
    level: int
    stimuli: list = field(default_factory=list)
    streams: list = field(default_factory=list)
    faulty: list = field(default_factory=list)


def case_of(seed):
    draw = random.Random(seed)
    shape, lattice_text = random_lattice(draw)
    lattice = lattice_of(lattice_text)
    refused = []
    while True:
        text = random_text(draw, lattice)
        fault = fault_of(text, lattice)
        if fault is None:
            break
        refused.append((text, fault))
    case = Case(shape, lattice_text, text, design_of(text, lattice), random_level(draw, lattice))
    add_stimuli(case, draw, lattice)
    case.faulty = refused[:1] + edited(draw, case, lattice)
    return case


def random_level(draw, lattice):
    """Seldom top, where everything is seen."""
    return draw.choice([level for level in lattice.levels if level != lattice.top or draw.random() < 0.2])


def random_text(draw, lattice):
    text = Designs(draw, lattice, draw.choice((1, 2, 2))).text()
    return scattered(draw, text) if draw.random() < 0.2 else text


def fault_of(text, lattice):
    """The first fault of a text, if it has one."""
    try:
        design_of(text, lattice)
    except Fault as fault:
        return fault
    return None


def add_stimuli(case, draw, lattice):
    inputs = case.design.of_sort(Input)
    one = random_stream(draw, inputs, lattice)
    other = other_stream(draw, one, inputs, lattice, case.level)
    case.stimuli = [text_of(draw, stream, lattice) for stream in (one, other)]
    case.streams = [stream_of(stimulus, case.design) for stimulus in case.stimuli]


def edited(draw, case, lattice):
    """Edits of the design, each with its fault."""
    texts = [edit() for edit in draw.sample(Edits(draw, case.design, case.text).all(), EDITS_OF_A_CASE)]
    return [(text, fault_of(text, lattice)) for text in texts if text not in (None, case.text)]
