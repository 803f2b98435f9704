"""The model of linked designs on the examples: the rows that are told of systems, rows/SYSTEM.STIM, what is seen of pairs of runs, and the designs alone.

Usage: python3 -m model.link_examples TOP
"""

import glob
import os
import sys

from .examples import held
from .lattice import lattice_of
from .links import DesignFiles, linked_of, rows_and_trace, stream_of, system_of
from .streams import is_alike, seen_of_rows, seen_of_trace

# Folder, system, two stimuli, a level, and whether the streams agree there.
PAIRS = (
    ("linked", "system", "one", "other", "a", True),
    ("linked", "system", "one", "other", "low", True),
    ("linked", "system", "one", "other", "b", False),
    ("linked", "mixed", "one", "other", "a", True),
)


def linked_in(top, folder, name):
    """A system of an example. Its files are named as from the repository's folder."""
    data = held(folder, f"{name}.toml").encode()
    texts = {file: held(top, file) for _, file in system_of(data).parts}
    return linked_of(data, DesignFiles(texts, lattice_of(held(folder, "lattice.toml"))))


def told(top):
    """Each file of rows with its folder and the names of its system and its stimulus."""
    for path in sorted(glob.glob(os.path.join(top, "examples", "*", "rows", "*"))):
        yield path, os.path.dirname(os.path.dirname(path)), *os.path.basename(path).split(".")


def agree(one, other, level, lattice):
    """Whether two streams of a system agree at a level."""
    cycles = zip(one, other)
    return len(one) == len(other) and all(is_alike(*pair, level, lattice) for inputs, others in cycles for pair in zip(inputs, others))


def seen(run, level, lattice):
    """What is seen at a level of rows and refusals."""
    rows, trace = run
    return seen_of_rows(rows, level, lattice), seen_of_trace(trace, level, lattice)


def wrong_rows(top):
    for path, folder, name, stimulus in told(top):
        if rows_and_trace(linked_in(top, folder, name), held(folder, f"{stimulus}.txt"))[0] != held(path):
            yield f"{path} isn't what the model says"


def wrong_pairs(top):
    for folder, name, one, other, level, wanted in PAIRS:
        folder = os.path.join(top, "examples", folder)
        linked = linked_in(top, folder, name)
        lattice, stimuli = linked.lattice, [held(folder, f"{stimulus}.txt") for stimulus in (one, other)]
        level = lattice.number[level]
        if agree(*(stream_of(stimulus, linked) for stimulus in stimuli), level, lattice) != wanted:
            yield f"{one} and {other} of {name} at {lattice.names[level]}: they are to agree: {wanted}"
        one, other = (seen(rows_and_trace(linked, stimulus), level, lattice) for stimulus in stimuli)
        if (one == other) != wanted:
            yield f"what is seen at {lattice.names[level]} of both runs of {name} is to be the same: {wanted}"


def main(top):
    wrong = [*wrong_rows(top), *wrong_pairs(top)]
    for what in wrong:
        print(what)
    count = len(list(told(top)))
    print(f"linked examples by the model: {count} files of rows, {len(PAIRS)} pairs of runs; {len(wrong) or 'none'} wrong")
    return bool(wrong) or not count


if __name__ == "__main__":
    sys.exit(main(sys.argv[1]))
