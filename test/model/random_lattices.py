"""Lattices drawn at random: their names and the pairs of names of which the first stands below the second."""

from itertools import combinations

from .lattice import Lattice, text_of

OWNERS = "abcde"
# Names that levels may have though they look like something else.
ODD_NAMES = ["then", "case", "sapper", "x0", "S0", "clk", "_", "Input", "a_level_whose_name_is_forty_bytes_long__"]


def two():
    return ["low", "high"], [("low", "high")]


def diamond():
    return ["low", "a", "b", "high"], [("low", "a"), ("low", "b"), ("a", "high"), ("b", "high")]


def pentagon():
    return ["low", "p", "q", "r", "high"], [("low", "p"), ("p", "q"), ("q", "high"), ("low", "r"), ("r", "high")]


def chain(count):
    names = [f"level{place}" for place in range(count)]
    return names, list(zip(names, names[1:]))


def subsets(owners):
    """The subsets of so many owners, each below those that hold it; the pairs add one owner at a time."""
    sets = [set(chosen) for count in range(owners + 1) for chosen in combinations(OWNERS[:owners], count)]
    names = ["of_" + "".join(sorted(chosen)) for chosen in sets]
    pairs = [(low, high) for low, fewer in zip(names, sets) for high, more in zip(names, sets) if fewer < more and len(more) == len(fewer) + 1]
    return names, pairs


def random_shape(draw):
    """The name of a shape, and a lattice of it."""
    shapes = {
        "two": two,
        "diamond": diamond,
        "pentagon": pentagon,
        "chain": lambda: chain(draw.choice((3, 4, 16, 17, 63, 64, draw.randint(3, 64)))),
        "subsets of 3": lambda: subsets(3),
        "subsets of 5": lambda: subsets(5),
    }
    shape = draw.choice(list(shapes))
    return shape, *shapes[shape]()


def random_lattice(draw):
    """The name of a shape and the text of a lattice file, with its levels and pairs in any order."""
    shape, names, pairs = random_shape(draw)
    if draw.random() < 0.3:
        names, pairs = renamed(draw, names, pairs)
    if draw.random() < 0.5:
        draw.shuffle(names)
        draw.shuffle(pairs)
    if draw.random() < 0.3:
        pairs = pairs + needless_pairs(draw, names, pairs)
    return shape, text_of(names, pairs)


def renamed(draw, names, pairs):
    """The same lattice with an odd name for one of its levels."""
    old, new = draw.choice(names), draw.choice(ODD_NAMES)
    change = lambda name: new if name == old else name
    return [change(name) for name in names], [(change(low), change(high)) for low, high in pairs]


def needless_pairs(draw, names, pairs):
    """A few pairs that follow from the others, among them one of a level with itself."""
    lattice = Lattice(names, pairs)
    levels = [draw.randrange(len(names)) for _ in range(4)]
    return [(names[low], names[high]) for low in levels for high in levels if lattice.is_at_or_below(low, high)]
