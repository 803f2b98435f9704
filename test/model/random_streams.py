"""Stimuli drawn at random, and pairs of them that differ above a level, or elsewhere too."""

from .expressions import Tagged


def random_stream(draw, inputs, lattice):
    """For each cycle what each input gets: mostly at bottom or one of two other levels. In some streams cycles stay the same for a while."""
    cycles = draw.choice((0, 1, 3) + (24, 40, 40) * 4)
    levels = [lattice.bottom] * draw.choice((1, 4, 16)) + [draw.choice(lattice.levels) for _ in range(2)]
    longest = draw.choice((1, 1, 2, 8))
    stream = []
    while len(stream) < cycles:
        fields = [random_field(draw, one.width, lattice, levels) for one in inputs]
        stream += [list(fields) for _ in range(draw.randint(1, longest))]
    return stream


def random_field(draw, width, lattice, levels):
    return Tagged(random_value(draw, width), draw.choice(levels if draw.random() < 0.95 else lattice.levels))


def random_value(draw, width):
    return draw.choice((draw.randrange(2**width), draw.randrange(2**width), draw.randrange(min(2**width, 4)), 2**width - 1))


def text_of(draw, stream, lattice):
    """The stimulus of a stream. A value may have zeros in front; a line may stand for several cycles that are the same."""
    lines, cycle = [], 0
    while cycle < len(stream):
        count = random_count(draw, stream, cycle)
        pieces = [field_text(draw, field, lattice) for field in stream[cycle]]
        pieces += [f"*{str(count).rjust(draw.choice((1, 1, 5)), '0')}"] if count > 1 or draw.random() < 0.05 else []
        lines.append(" ".join(pieces) + "\n")
        cycle += count
    return "".join(lines)


def random_count(draw, stream, cycle):
    """For how many cycles a line may stand, from this one on: at most for those that are the same."""
    same = 1
    while cycle + same < len(stream) and stream[cycle + same] == stream[cycle]:
        same += 1
    return draw.choice((1, draw.randint(1, same), same))


def field_text(draw, field, lattice):
    value = str(field.value).rjust(draw.choice((1,) * 8 + (2, 20)), "0")
    return f"{value}@{lattice.names[field.level]}"


def other_stream(draw, stream, inputs, lattice, level):
    """A stream that differs from this one in what isn't seen at a level; now and then in a few other places too, or in its length."""
    widths = [one.width for one in inputs]
    other = [[hidden_change(draw, *one, lattice, level) for one in zip(fields, widths)] for fields in stream]
    kind = draw.choice(("hidden", "hidden", "open", "open", "length"))
    if kind == "length":
        return other[: draw.randint(0, len(other))] + other[: draw.choice((0, 0, 1))]
    if kind == "open" and other and widths:
        for _ in range(draw.choice((1, 1, 2))):
            cycle, place = draw.randrange(len(other)), draw.randrange(len(widths))
            other[cycle][place] = open_change(draw, other[cycle][place], widths[place], lattice)
    return other


def hidden_change(draw, field, width, lattice, level):
    """A field whose level isn't seen gets, mostly, another value and another level that isn't seen."""
    hidden = [other for other in lattice.levels if not lattice.is_at_or_below(other, level)]
    if field.level not in hidden or draw.random() < 0.3:
        return field
    return Tagged(random_value(draw, width), draw.choice((field.level, draw.choice(hidden))))


def open_change(draw, field, width, lattice):
    """Another value, or another level, or both."""
    return draw.choice((
        Tagged(random_value(draw, width), field.level),
        Tagged(field.value, draw.choice(lattice.levels)),
        random_field(draw, width, lattice, lattice.levels),
    ))
