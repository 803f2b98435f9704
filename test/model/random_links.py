"""Systems drawn at random: their parts, their wires, pairs of stimuli, and systems with something in them exchanged."""

import json

from .cases import fault_of
from .links import DesignFiles
from .random_designs import Designs, scattered
from .random_streams import other_stream, random_stream, text_of
from .tokens import Fault
from .tree import Input, Register

PART_NAMES = ("p", "q", "r", "s", "keys", "cipher", "bus", "P", "p1", "then", "case", "top", "clk", "i", "v", "t", "n1", "If", "a" * 40)
MORE_PARTS = 8


def random_parts(draw, lattice):
    """Design files, and the parts: names with files. One file may serve several parts."""
    widths = [draw.choice((1, 2, 8, 64, draw.randint(1, 64))) for _ in range(2)]
    count = draw.choice((1, 2, 2, 2, 3, 3, 4, 5, 8))
    texts = {f"design_{number}.sapper": well_formed_text(draw, lattice, widths) for number in range(draw.randint(max(1, count // 2), count))}
    names = list(texts) + draw.choices(list(texts), k=count - len(texts))
    draw.shuffle(names)
    return DesignFiles(texts, lattice), list(zip(draw.sample(PART_NAMES, count), names))


def well_formed_text(draw, lattice, widths):
    while True:
        text = random_text(draw, lattice, widths)
        if fault_of(text, lattice) is None:
            return text


def random_text(draw, lattice, widths):
    """A design of either version whose inputs and registers have one of few widths, so that wires fit."""
    designs = Designs(draw, lattice, draw.choice((1, 2)))
    designs.widths = widths
    text = designs.text()
    return scattered(draw, text) if draw.random() < 0.1 else text


def random_wires(draw, parts):
    """Wires that fit, from any register to inputs that no other feeds. In some systems one register feeds most of them."""
    sources = [(f"{part}.{one.name}", one.width) for part, design in parts for one in design.of_sort(Register)]
    targets = [(f"{part}.{one.name}", one.width) for part, design in parts for one in design.of_sort(Input)]
    levels = parts[0][1].lattice.names
    share, favoured, with_level = draw.choice((0.3, 0.7, 1)), draw.choice((0, 0, 0.7)), draw.choice((0, 0.4, 1))
    favourites = {width: source for source, width in draw.sample(sources, len(sources))}
    wires = []
    for target, width in draw.sample(targets, len(targets)):
        fitting = [source for source, own in sources if own == width]
        if fitting and draw.random() < share:
            source = favourites[width] if draw.random() < favoured else draw.choice(fitting)
            wires.append([source, target] + ([draw.choice(levels)] if draw.random() < with_level else []))
    return wires


def stimuli_of(draw, linked):
    """Two stimuli that mostly differ in what isn't seen at a level."""
    lattice, inputs = linked.lattice, linked.free_inputs
    level = draw.choice(lattice.levels)
    one = random_stream(draw, inputs, lattice)
    return [text_of(draw, stream, lattice) for stream in (one, other_stream(draw, one, inputs, lattice, level))]


# Damages.


def damaged(draw, parts, wires, files):
    """The bytes of a system file in which something is exchanged, and the design files beside it."""
    damages = Damages(draw, parts, wires, files)
    for _ in range(draw.choice((1, 1, 1, 2, 3))):
        damages.one()
    return damages.system(), damages.files


class Damages:
    """A system in which something is exchanged, one thing after another."""

    def __init__(self, draw, parts, wires, files):
        self.draw = draw
        self.parts = [list(part) for part in parts]
        self.wires = [list(wire) for wire in wires]
        self.files = files
        self.levels = files.lattice.names

    def one(self):
        kinds = [self.exchange_name, self.exchange_file, self.damage_design, self.add_wire]
        kinds += [self.exchange_end, self.exchange_end, self.exchange_level, self.cross_wires] if self.wires else []
        self.draw.choice(kinds)()

    def system(self):
        if self.draw.random() < 0.05:
            self.parts += [[f"more{number}", self.parts[0][1]] for number in range(MORE_PARTS)]
        text = f"parts = {json.dumps(self.parts)}\nwires = {json.dumps(self.wires)}\n"
        return (self.damaged_text(text) if self.draw.random() < 0.15 else text).encode()

    def damaged_text(self, text):
        """The text without some of it, or with another key, or with one more."""
        at = self.draw.randrange(len(text))
        cut = text[:at] + text[at + self.draw.choice((1, 1, 1, 5)) :]
        others = (text.replace("wires", "wire"), text + "more = 1\n", text.replace("[[", "["), text + text, text.replace('", "', '", 1, "', 1))
        return self.draw.choice((cut, cut, *others))

    def exchange_name(self):
        part = self.draw.choice(self.parts)
        names = ("", "_", "a_b", "1", "reg", "tag", "then", "other", "b" * 40, "b" * 41, "p.q", "\u00e4", part[0] + "x", self.draw.choice(self.parts)[0])
        part[0] = self.draw.choice(names)

    def exchange_file(self):
        self.draw.choice(self.parts)[1] = self.draw.choice(("missing.sapper", "", *self.files.texts))

    def damage_design(self):
        """One of the designs is cut, or has another word in it."""
        name = self.draw.choice(sorted(self.files.texts))
        text = self.files.texts[name]
        at = self.draw.randrange(len(text))
        texts = [text[:at], text[:at] + "?" + text[at:]]
        texts += [text.replace(word, other, 1) for word, other in (("state", "stat"), (" : ", " : 1"), ("goto", "goto x ; goto"))]
        self.files = self.files.with_texts({**self.files.texts, name: self.draw.choice(texts)})

    def some_end(self):
        """A part and a name, mostly of something that it has."""
        part, file = self.draw.choice(self.parts)
        try:
            names = list(self.files.design(file).entities)
        except (Fault, FileNotFoundError):
            return f"{part}.x0"
        ends = (f"{part}.nowhere", part, f".{names[0]}", f"nowhere.{names[0]}", f"{part}.{names[0]}.", "")
        return self.draw.choice((f"{part}.{self.draw.choice(names)}",) * 6 + ends)

    def exchange_end(self):
        self.draw.choice(self.wires)[self.draw.randrange(2)] = self.some_end()

    def exchange_level(self):
        self.draw.choice(self.wires)[2:] = [self.draw.choice(("", "nowhere", self.draw.choice(self.levels).upper(), self.draw.choice(self.levels)))]

    def add_wire(self):
        wire = self.draw.choice(self.wires) if self.wires and self.draw.random() < 0.6 else [self.some_end(), self.some_end()]
        self.wires.insert(self.draw.randint(0, len(self.wires)), list(wire))

    def cross_wires(self):
        """Two wires exchange what they feed, so that widths may differ."""
        one, other = self.draw.choice(self.wires), self.draw.choice(self.wires)
        one[1], other[1] = other[1], one[1]
