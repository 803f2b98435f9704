"""Stimuli: the inputs of each cycle; whether two streams agree at a level; what is seen of a run at a level."""

from .expressions import Tagged
from .tree import Input


def stream_of(text, design):
    """The cycles of a stimulus without a fault: for each a dictionary of what the inputs get."""
    names = [one.name for one in design.of_sort(Input)]
    return [dict(zip(names, fields_of(fields, design.lattice))) for line in text.splitlines() for fields in cycles_of(line)]


def cycles_of(line):
    """The fields of a line, once for each cycle for which it stands."""
    pieces = line.split(" ") if line else []
    count = int(pieces.pop()[1:]) if pieces and pieces[-1].startswith("*") else 1
    return [pieces] * count


def fields_of(pieces, lattice):
    fields = [piece.split("@") for piece in pieces]
    return [Tagged(int(value), lattice.number[level]) for value, level in fields]


def is_alike(one, other, level, lattice):
    """Whether two inputs agree at a level: the same value and level, or neither level at or below it."""
    is_seen = any(lattice.is_at_or_below(tagged.level, level) for tagged in (one, other))
    return one == other or not is_seen


def first_difference(one, other, level, lattice):
    """What `twin` says of two streams that don't agree at a level; None where they do."""
    if len(one) != len(other):
        return f"streams: lengths {len(one)} and {len(other)}"
    for cycle, (inputs, others) in enumerate(zip(one, other), 1):
        for name in inputs:
            if not is_alike(inputs[name], others[name], level, lattice):
                return f"streams: cycle {cycle} input {name}"
    return None


def seen_of_rows(rows, level, lattice):
    """Rows without the values and levels that aren't seen at a level."""
    return [[field for field in row.split(" ") if is_seen(field, level, lattice)] for row in rows.splitlines()]


def is_seen(field, level, lattice):
    return "@" not in field or lattice.is_at_or_below(lattice.number[field.split("@")[1]], level)


def seen_of_trace(trace, level, lattice):
    """The lines of a trace whose level is seen at a level."""
    return [line for line in trace.splitlines() if lattice.is_at_or_below(lattice.number[line.split(" ")[-1]], level)]
