"""Levels, their order, joins and codes. A level is its place in the file, from 0."""

import ast
import json
import re


class Lattice:
    """A finite lattice, from its levels' names and the pairs of names of which the first stands below the second."""

    def __init__(self, names, below):
        self.names = list(names)
        self.number = {name: level for level, name in enumerate(names)}
        self.levels = range(len(self.names))
        self.above = self.closed(below)
        self.at_these = {levels: level for level, levels in enumerate(self.above)}
        self.bottom = self.at_these[frozenset(self.levels)]
        self.top = next(level for level in self.levels if all(level in levels for levels in self.above))
        self.irreducibles = [level for level in self.levels if level != self.top and len(self.upper_covers(level)) == 1]

    def closed(self, below):
        """For each level the set of all levels at or above it: the reflexive transitive closure of the pairs."""
        above = [{level} for level in self.levels]
        for low, high in below:
            above[self.number[low]].add(self.number[high])
        for middle in self.levels:
            for level in self.levels:
                if middle in above[level]:
                    above[level] |= above[middle]
        return [frozenset(levels) for levels in above]

    def is_at_or_below(self, one, other):
        return other in self.above[one]

    def join(self, *levels):
        """The least level at or above all of these: what stands above it stands above each of them."""
        joined = self.bottom
        for level in levels:
            joined = self.at_these[self.above[joined] & self.above[level]]
        return joined

    def upper_covers(self, level):
        higher = self.above[level] - {level}
        return [one for one in higher if not any(one in self.above[other] for other in higher - {one})]

    def meet_irreducibles(self):
        """The levels but top that have exactly one upper cover, in the order of the file."""
        return self.irreducibles

    def code(self, level):
        """The meet-irreducibles that the level isn't at or below, a bit each."""
        return sum(1 << bit for bit, other in enumerate(self.meet_irreducibles()) if not self.is_at_or_below(level, other))


def lattice_of(text):
    """The lattice of a file whose two keys stand in order, each with an array that Python reads as well; lines of comments are passed over."""
    lines = "\n".join(line for line in text.splitlines() if not line.startswith("#"))
    levels, below = re.fullmatch(r"levels = (\[.*?\])\s*below = (\[.*\])\s*", lines, re.DOTALL).groups()
    return Lattice(ast.literal_eval(levels), ast.literal_eval(below))


def text_of(names, below):
    """A lattice file."""
    return f"levels = {json.dumps(list(names))}\nbelow = {json.dumps([list(pair) for pair in below])}\n"
