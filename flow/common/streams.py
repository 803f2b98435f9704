"""Stimuli, and the cycles that they stand for."""


def lines_of(stimulus):
    """The fields of each line, each a number and perhaps a level, and how many cycles the line stands for."""
    for line in stimulus.split("\n")[:-1]:
        pieces = line.split(" ") if line else []
        count = int(pieces.pop()[1:]) if pieces and pieces[-1].startswith("*") else 1
        yield [tuple(piece.split("@")) for piece in pieces], count


def cycles_of(stimulus):
    """The fields of each cycle."""
    return [fields for fields, count in lines_of(stimulus) for _ in range(count)]
