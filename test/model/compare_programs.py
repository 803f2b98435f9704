"""`machine`, `asm`, `cpu`, and `run`, `trace`, `sim` and `twin` of the machine, beside the model. Usage: python3 -m model.compare_programs PROGRAM TOP COUNT SEED"""

import os
import random
import re
import shutil
import sys
from collections import Counter
from itertools import chain

from .compare import Answer, Calls
from .design import design_of
from .examples import held
from .lattice import lattice_of
from .program_table import GOOD, SLICES, programs
from .programs import CYCLES_BEFORE, CYCLES_OF_A_SLICE, NAMES, of_both, refusals, slice_by_slice, stimulus_text, users_text, words_of, words_taken
from .random_programs import damaged, random_program, random_slices, random_words
from .random_streams import text_of
from .streams import first_difference, seen_of_rows, stream_of
from .texts import report, rows_and_trace

LATTICE, DESIGN, MODULE, UNTAGGED, STIMULUS, OTHER = "lattice.toml", "machine.sapper", "machine.v", "untagged.v", "one.txt", "other.txt"
FILES = ("a.asm", "b.asm")
DAMAGES_OF_A_CASE = 6
MOST_SLICES = 1000


class Programs(Calls):
    """Calls on the machine of the examples, in a folder with its files."""

    def __init__(self, program, name, counts, top):
        super().__init__(program, name, counts)
        folder = os.path.join(top, "examples", "machine")
        for one in (LATTICE, DESIGN, UNTAGGED):
            self.put(one, held(folder, one))
        self.lattice = lattice_of(held(folder, LATTICE))
        self.design = design_of(held(folder, DESIGN), self.lattice)

    def both(self, texts, slices):
        """`asm` and `cpu` of two programs, whose files are put. Answers their words; None where one is refused."""
        for name, text in zip(FILES, texts):
            self.put(name, text)
        words, line = of_both(texts)
        for command, gives in (("asm", stimulus_text), ("cpu", users_text)):
            wanted = Answer(11, line=line) if line else Answer(0, gives(words, slices))
            self.expect(wanted, command, *FILES, str(slices))
        if line:
            self.counts[f"{line[7:9]} of {NAMES[int(line[4]) - 1]}"] += 1
        return words

    def run(self, name, stimulus):
        """A run by the design and by its module: rows and trace are the model's, and they have what the theorem says. Answers the rows."""
        self.put(name, stimulus)
        rows, trace = rows_and_trace(self.design, stimulus)
        got = self.expect(Answer(0, rows), "run", LATTICE, DESIGN, name).output
        self.expect(Answer(0, trace), "trace", LATTICE, DESIGN, name)
        self.expect(Answer(0, rows), "sim", LATTICE, MODULE, name)
        stream = stream_of(stimulus, self.design)
        self.table(got, stream)
        if trace != refusals(stream, self.lattice):
            self.note(f"{name}: other words are refused than those above their users")
        self.counts["rows"] += len(stream)
        self.counts["refused words"] += trace.count("\n")
        return got

    def table(self, rows, stream):
        """After each slice the kernel keeps of both users what the instruction table says."""
        kept = rows.splitlines()[CYCLES_BEFORE - 1 :: CYCLES_OF_A_SLICE]
        for user, name in enumerate(NAMES):
            behind = slice_by_slice(user, words_taken(stream, user, self.lattice), len(kept) - 1)
            for number, (row, one) in enumerate(zip(kept, behind)):
                if f" {name}pc={one.pc}@{name} {name}acc={one.acc}@{name}" not in row:
                    self.note(f"{name} after {number} slices: not pc={one.pc} acc={one.acc} in {row!r}")
                    break
        self.counts["states after a slice"] += 2 * len(kept)

    def untagged(self, rows):
        """On a stimulus of `asm` the module without tags has the same numbers."""
        got = self.call("sim", LATTICE, UNTAGGED, STIMULUS)
        if got.status or without_levels(got.output) != without_levels(rows):
            self.note("untagged.v has other numbers")

    def twins(self, stimuli, rows):
        """Whether two streams agree at each level; and where they do, that what is seen there of the rows is the same."""
        streams = [stream_of(stimulus, self.design) for stimulus in stimuli]
        for level in self.lattice.levels:
            name, apart = self.lattice.names[level], first_difference(*streams, level, self.lattice)
            agree = Answer(0, f"agree at {name} for {len(streams[0])} cycles\n")
            self.expect(Answer(8, line=apart + "\n") if apart else agree, "twin", LATTICE, DESIGN, STIMULUS, OTHER, name)
            seen = [seen_of_rows(one, level, self.lattice) for one in rows]
            if not apart and seen[0] != seen[1]:
                self.note(f"the streams agree at {name}, and what is seen there of the runs differs")
            self.counts["streams apart" if apart else "streams that agree"] += 1


def without_levels(rows):
    return re.sub(r"@\w+", "", rows)


# Once.


def the_machine(calls):
    """The design, its report and its module."""
    calls.expect(Answer(0, held(calls.folder, DESIGN)), "machine")
    calls.expect(Answer(0, held(calls.folder, DESIGN)), "fmt", DESIGN)
    calls.expect(Answer(0, report(calls.design)), "report", LATTICE, DESIGN)
    calls.expect(Answer(0), "compile", LATTICE, DESIGN, MODULE)


def by_hand(calls):
    """Each program of the tables as A and as B, beside one without a fault and beside one with another."""
    for number, (text, wanted) in enumerate(programs()):
        is_refused = isinstance(wanted, str)
        answer = Answer(11, line=f"asm {{}}: {wanted}\n") if is_refused else None
        slices = 1 + number % MOST_SLICES
        for place in range(2):
            texts = [text, GOOD] if place == 0 else [GOOD, text]
            for name, one in zip(FILES, texts):
                calls.put(name, one)
            words = None if is_refused else [wanted if one is text else words_of(one) for one in texts]
            for command, gives in (("asm", stimulus_text), ("cpu", users_text)):
                asked = answer._replace(line=answer.line.format(place + 1)) if is_refused else Answer(0, gives(words, slices))
                calls.expect(asked, command, *FILES, str(slices))
        calls.counts[f"by hand: {wanted[:2]}" if is_refused else "by hand: words"] += 1


def order_of_refusals(calls):
    """A is read and refused before B is read."""
    calls.put(FILES[0], "what\n")
    calls.put(FILES[1], "ld 16\n")
    for command in ("asm", "cpu"):
        for words, wanted in (
            ((*FILES, "1"), Answer(11, line="asm 1: B1 line 1\n")),
            ((FILES[1], FILES[0], "1"), Answer(11, line="asm 1: B2 line 1\n")),
            ((FILES[0], "missing.asm", "1"), Answer(11, line="asm 1: B1 line 1\n")),
            (("missing.asm", FILES[0], "1"), Answer(6, line="desk: missing.asm\n")),
            ((DESIGN, DESIGN, "1"), Answer(11, line="asm 1: B1 line 1\n")),
            ((*FILES, "1", "1"), Answer(2, line="words\n")),
            (FILES, Answer(2, line="words\n")),
            (("-a", FILES[1], "1"), Answer(2, line="words\n")),
        ):
            calls.expect(wanted, command, *words)
        calls.put("good.asm", GOOD)
        calls.expect(Answer(6, line="desk: missing.asm\n"), command, "good.asm", "missing.asm", "1")
    calls.expect(Answer(2, line="words\n"), "machine", "1")


def numbers_of_slices(calls):
    """N as for `gen`: the same numbers are taken."""
    calls.put(FILES[0], GOOD)
    calls.put(FILES[1], GOOD)
    words = [words_of(GOOD)] * 2
    for text, slices in SLICES:
        refused = Answer(2, line="words\n")
        calls.expect(Answer(0, stimulus_text(words, slices)) if slices else refused, "asm", *FILES, text)
        calls.expect(Answer(0, users_text(words, slices)) if slices else refused, "cpu", *FILES, text)
        if slices is None or slices < 20:
            got = calls.call("gen", text)
            if (got.status == 0) != bool(slices) or (not slices and got != refused):
                calls.note(f"gen {text!r}: status {got.status}")


def once(calls, *_):
    the_machine(calls)
    by_hand(calls)
    order_of_refusals(calls)
    numbers_of_slices(calls)


# Drawn at random.


def random_case(calls, seed):
    draw = random.Random(seed)
    calls.call("compile", LATTICE, DESIGN, MODULE)
    texts, slices = [random_program(draw), random_program(draw)], random_slices(draw)
    words = calls.both(texts, slices)
    stimulus = stimulus_text(words, slices)
    rows = calls.run(STIMULUS, stimulus)
    if not all(line in rows.splitlines()[-1] for line in kept_of(users_text(words, slices))):
        calls.note("the last row isn't what cpu tells")
    calls.untagged(rows)
    another = list(texts)
    another[draw.randrange(2)] = random_program(draw)
    other = stimulus_text(of_both(another)[0], slices)
    calls.twins((stimulus, other), (rows, calls.run(OTHER, other)))
    calls.run(STIMULUS, text_of(draw, random_words(draw, calls.lattice, slices), calls.lattice))
    calls.both(texts, draw.randint(1, MOST_SLICES))
    for _ in range(DAMAGES_OF_A_CASE):
        at = draw.choice(((0,), (1,), (0, 1)))
        calls.both([damaged(draw, text) if user in at else text for user, text in enumerate(texts)], slices)


def kept_of(text):
    """The lines of `cpu`, as the last row has them."""
    return [f" {name}pc={pc}@{name} {name}acc={acc}@{name}" for name, pc, acc in re.findall(r"^(\w) pc=(\d+) acc=(\d+)$", text, re.MULTILINE)]


COUNTS = (
    ("calls", ("machine", "asm", "cpu", "compile", "run", "trace", "sim", "twin", "gen")),
    ("by hand", ("by hand: words", *(f"by hand: B{number}" for number in range(1, 5)))),
    ("runs", ("rows", "states after a slice", "refused words", "streams that agree", "streams apart")),
    ("refused at random", tuple(f"B{number} of {name}" for name in NAMES for number in range(1, 5))),
)


def main(program, top, count, seed):
    """The tables, then so many cases, from a seed on. Folders of cases that differ are kept."""
    counts, wrong = Counter(), 0
    cases = chain([("tables", once, None)], ((f"seed {number}", random_case, number) for number in range(seed, seed + count)))
    for name, case, number in cases:
        calls = Programs(program, f"programs_{name.replace(' ', '_')}", counts, top)
        case(calls, number)
        if not calls.differing:
            shutil.rmtree(calls.folder)
            continue
        wrong += 1
        print(f"DIFFERS: {name}, files in {calls.folder}")
        for what in calls.differing[:20]:
            print(f"  {what}")
    for what, kinds in COUNTS:
        print(f"{what}: " + ", ".join(f"{kind.removeprefix('by hand: ')} {counts[kind]}" for kind in kinds))
    print(f"{wrong} of the tables and {count} cases differ" if wrong else f"none differs: the tables and {count} cases")
    return bool(wrong)


if __name__ == "__main__":
    sys.exit(main(sys.argv[1], sys.argv[2], int(sys.argv[3]), int(sys.argv[4])))
