"""The model of the time-sliced machine on what was worked out by hand. Usage: python3 -m model.program_table

PROGRAMS has texts in assembly on both sides of each rule, each with the words of its lines or with its fault.
"""

import sys

from .programs import CYCLES_BEFORE, WORDS, AsmFault, of_both, stimulus_text, users_text, words_of

GOOD = "nop\n"

# The one line of a program, and what is wrong with it; or its word.
LINES = (
    ("nop", 0),
    ("halt", 2048),
    ("ldi 0", 256),
    ("ldi 255", 511),
    ("ldi 256", "B2"),
    ("ldi 999", "B2"),
    ("ldi 007", 263),
    ("ldi 0255", "B1"),
    ("ldi 1000", "B1"),
    ("ld 0", 512),
    ("ld 15", 527),
    ("ld 16", "B2"),
    ("ld 015", 527),
    ("ld 255", "B2"),
    ("st 15", 783),
    ("st 16", "B2"),
    ("add 15", 1039),
    ("add 16", "B2"),
    ("sub 15", 1295),
    ("sub 16", "B2"),
    ("jmp 15", 1551),
    ("jmp 16", "B2"),
    ("jz 15", 1807),
    ("jz 16", "B2"),
    ("", "B1"),
    (" ", "B1"),
    ("nop ", "B1"),
    (" nop", "B1"),
    ("nop 0", "B1"),
    ("halt 1", "B1"),
    ("halt 16", "B1"),
    ("ldi", "B1"),
    ("ldi ", "B1"),
    ("ldi  5", "B1"),
    (" ldi 5", "B1"),
    ("ldi 5 ", "B1"),
    ("ldi 5 6", "B1"),
    ("ldi5", "B1"),
    ("ldi -5", "B1"),
    ("ldi +5", "B1"),
    ("ldi 0x5", "B1"),
    ("ldi 5a", "B1"),
    ("ldi 2_5", "B1"),
    ("5", "B1"),
    ("nope", "B1"),
    ("mul 3", "B1"),
    ("LDI 5", "B1"),
    ("Halt", "B1"),
    ("NOP", "B1"),
    ("ldi\t5", "B1"),
    ("\tnop", "B1"),
    ("nop\t", "B1"),
    ("nop\r", "B1"),
    ("ldi 5\r", "B1"),
    ("\r", "B1"),
    ("nop\0", "B1"),
    ("\0", "B1"),
    ("ldi\x005", "B1"),
    ("ldi 5\x0b", "B1"),
    ("ldi\xa05", "B1"),
    ("ldi \xb2", "B1"),
    ("ldi \xd9\xa5", "B1"),
    ("\xef\xbb\xbfnop", "B1"),
    ("\x80", "B1"),
    ("\xff\xfe", "B1"),
    ("nop\xc3", "B1"),
    ("\xc3\xa4", "B1"),
    ("; a comment", "B1"),
)


def lines_of_programs():
    """Each line of the table as each line of a program, from the first to the sixteenth, and as the seventeenth; with what is to come of it."""
    for place in range(1, WORDS + 2):
        for line, wanted in LINES:
            text = GOOD * (place - 1) + line + "\n"
            if place > WORDS:
                yield text, f"B3 line {place}"
            elif isinstance(wanted, str):
                yield text, f"{wanted} line {place}"
            else:
                yield text, words_with(place, wanted)


def words_with(place, word):
    return [0] * (place - 1) + [word] + [0] * (WORDS - place)


def ends_of_programs():
    """A last line without LF, as each line of a program: whatever it is, it has no other fault, but that it is one too many."""
    for place in range(1, WORDS + 2):
        for line in ("nop", "halt", "ldi 256", "what", "ldi 5", " ", "\r", "\xff", "\0"):
            yield GOOD * (place - 1) + line, f"{'B3' if place > WORDS else 'B4'} line {place}"


# Of two lines with a fault the first counts.
PROGRAMS = (
    ("", [0] * WORDS),
    ("\n", "B1 line 1"),
    (GOOD * 16, [0] * WORDS),
    (GOOD * 17, "B3 line 17"),
    (GOOD * 40, "B3 line 17"),
    (GOOD * 16 + "\n", "B3 line 17"),
    ("ldi 256\n" + GOOD * 16, "B2 line 1"),
    (GOOD * 15 + "ldi 256\n" + GOOD, "B2 line 16"),
    (GOOD * 15 + "what\nwhat", "B1 line 16"),
    ("ld 16\nwhat\n", "B2 line 1"),
    ("what\nld 16\n", "B1 line 1"),
    ("nop\nhalt", "B4 line 2"),
    ("nop\n\nhalt", "B1 line 2"),
    ("ldi 1\r\nhalt\r\n", "B1 line 1"),
    ("nop\n" * 3 + "\n" * 3, "B1 line 4"),
    ("x" * 70_000 + "\n", "B1 line 1"),
    ("ldi " + "0" * 70_000 + "5\n", "B1 line 1"),
)

# How a number of slices may be written, and what it is; None where the words are none.
SLICES = (
    ("1", 1), ("9", 9), ("10", 10), ("1000", 1000), ("0001", 1), ("010", 10), ("0999", 999),
    ("0", None), ("0000", None), ("1001", None), ("9999", None), ("00001", None), ("01000", None), ("10000", None), ("", None), (" 1", None), ("1 ", None),
    ("-1", None), ("+1", None), ("1.0", None), ("1e2", None), ("0x1", None), ("a", None), ("1\n", None), ("\xb9", None), ("\udcff", None), ("18446744073709551617", None),
)  # fmt: skip

# Two programs, slices, and the lines of `cpu`; the first by the rules' own example.
RUNS = (
    ("ldi 5\nst 1\nadd 1\nhalt\n", "ldi 7\nhalt\n", 2, "a pc=3 acc=10\nb pc=1 acc=7\n"),
    ("ldi 5\nst 1\nadd 1\nhalt\n", "ldi 7\nhalt\n", 1, "a pc=3 acc=10\nb pc=0 acc=0\n"),
    ("", "", 3, "a pc=6 acc=0\nb pc=3 acc=0\n"),
    ("ldi 3\njmp 15\n", "jz 15\n", 2, "a pc=0 acc=3\nb pc=15 acc=0\n"),
    ("sub 0\nldi 1\nst 1\nsub 1\nsub 1\nhalt\n", "halt\n", 4, "a pc=5 acc=255\nb pc=0 acc=0\n"),
    ("ldi 200\nst 15\nadd 15\n", "ldi 1\njz 0\nld 15\n", 2, "a pc=3 acc=144\nb pc=3 acc=0\n"),
)

STIMULUS = "261@a 263@b\n769@a 2048@b\n1025@a 0@b\n2048@a 0@b\n" + "0@a 0@b\n" * 12 + "0@low 0@low *13\n"


def programs():
    """All programs of the tables, each with its words or its fault."""
    yield from lines_of_programs()
    yield from ends_of_programs()
    yield from PROGRAMS


def said_of(text):
    try:
        return words_of(text)
    except AsmFault as fault:
        return str(fault)


def wrong():
    """What the model says otherwise than the tables."""
    for text, wanted in programs():
        said = said_of(text)
        if said != wanted:
            yield f"{text[-40:]!r}: {said} in place of {wanted}"
    for one, other, slices, wanted in RUNS:
        said = users_text(of_both((one, other))[0], slices)
        if said != wanted:
            yield f"{one!r} and {other!r}: {said!r} in place of {wanted!r}"
    if stimulus_text(of_both(RUNS[0][:2])[0], 2) != STIMULUS or CYCLES_BEFORE != 17:
        yield "the stimulus of the rules' own example"


def main():
    found = list(wrong())
    for what in found:
        print(what)
    print(f"programs worked out by hand: {sum(1 for _ in programs())} texts and {len(RUNS)} pairs by the model, {len(found) or 'none'} wrong")
    return bool(found)


if __name__ == "__main__":
    sys.exit(main())
