"""Programs for the two users, damaged ones, and streams of words at any level, drawn at random."""

import re

from .expressions import Tagged
from .programs import ALONE, CYCLES_BEFORE, CYCLES_OF_A_SLICE, OPERATIONS, WORDS

# What is put into a program to damage it.
PIECES = ("\n", "\n\n", "\r", "\t", " ", "  ", "0", "00", "256", "16", "\0", "\x80", "\xc3\xa4", "\xff", "x", "-1", "nop", "halt", "ld 1", "NOP", "#")


def random_line(draw):
    """A line of a program without a fault; few cells, so that what is stored is read again."""
    name = draw.choice(OPERATIONS + ("ldi", "st", "add", "sub", "jz"))
    if name in ALONE:
        return name
    most = 255 if name == "ldi" else 15
    number = draw.choice((draw.randint(0, most), draw.randint(0, 3), most))
    return f"{name} {number:0{draw.choice((1, 1, 1, 2, 3))}d}"


def random_program(draw):
    return "".join(random_line(draw) + "\n" for _ in range(draw.choice((0, 3, 8, 12, WORDS, WORDS, WORDS))))


def random_slices(draw):
    """How many slices: few, as each takes six cycles to run."""
    return draw.choice((1, 2, draw.randint(1, 40), draw.randint(1, 40)))


def damaged(draw, text):
    """A program with a piece more or less, in upper case, with other numbers, or with more lines; seldom still without a fault."""
    at = draw.randint(0, len(text))
    match draw.randrange(6):
        case 0:
            return text[:at] + text[at + draw.randint(1, 3) :]
        case 1:
            return text[:at] + text[at:].upper()
        case 2:
            return text + "".join(random_line(draw) + "\n" for _ in range(draw.randint(1, WORDS + 1))) + draw.choice(("", "nop", "what"))
        case 3:
            return re.sub("[0-9]+", lambda number: draw.choice((number[0], str(draw.choice((15, 16, 255, 256, 999))))), text)
        case _:
            return text[:at] + draw.choice(PIECES) + text[at:]


def random_words(draw, lattice, slices):
    """A stream for the machine, whose words come at any level, and go on to come when nobody takes them."""
    shares = [draw.choice(([own], [own, own, own, *lattice.levels], list(lattice.levels))) for own in (lattice.number["a"], lattice.number["b"])]
    return [
        [Tagged(random_word(draw), draw.choice(levels)) for levels in shares]
        for _ in range(CYCLES_BEFORE + CYCLES_OF_A_SLICE * slices + draw.choice((0, 0, 1, 5)))
    ]


def random_word(draw):
    """A word of the table, or seldom any number of twelve bits."""
    if draw.random() < 0.1:
        return draw.randrange(2**12)
    return 256 * draw.randrange(len(OPERATIONS)) + draw.choice((draw.randrange(256), draw.randrange(4)))
