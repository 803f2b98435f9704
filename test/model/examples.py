"""The model on what the repository has of rows, traces, reports, pairs of streams and faults, all worked out without the program.

Usage: python3 -m model.examples TOP
"""

import glob
import os
import re
import sys

from .design import design_of
from .lattice import lattice_of
from .programs import stimulus_text, words_of
from .streams import first_difference, stream_of
from .texts import report, rows_and_trace
from .tokens import Fault

# Folder, design, two stimuli, level, and what `twin` says of them: None where they agree.
TWINS = (
    ("pairs", "two_states", "one", "other", "low", None),
    ("pairs", "two_states", "one", "other", "high", "streams: cycle 1 input a"),
    ("cipher", "speck", "published", "other_key", "low", None),
    ("bus", "requests", "one", "other", "b", None),
    ("bus", "requests", "one", "open", "b", "streams: cycle 1 input a_asks"),
    ("bus", "slots", "one", "other", "b", None),
    ("processor", "kernel", "one", "other", "b", None),
    ("machine", "machine", "one", "other", "b", None),
    ("machine", "machine", "one", "other", "a", "streams: cycle 1 input wa"),
    ("verilog", "comparer", "near", "far", "b", None),
    ("verilog", "fifo", "pushed", "quiet", "b", None),
)
# Stimuli of examples/machine, each with its two programs, and their slices.
STIMULI = (("one", ("multiply", "pry"), 20), ("other", ("count", "pry"), 20))
# The lattice of the examples of faults.
LATTICE = 'levels = ["low", "high"]\nbelow = [["low", "high"]]\n'
# E18 is of limits, of which the model knows nothing.
WITHOUT = ("E18",)


def held(*path):
    with open(os.path.join(*path), encoding="ascii") as file:
        return file.read()


def design_in(folder, name):
    return design_of(held(folder, f"{name}.sapper"), lattice_of(held(folder, "lattice.toml")))


def wanted_files(top):
    """Each file wanted/DESIGN.report and wanted/DESIGN.STIM.COMMAND of the examples, and what the model says in its place. Modules aren't modelled."""
    for path in sorted(glob.glob(os.path.join(top, "examples", "*", "wanted", "*"))):
        folder, (name, *rest) = os.path.dirname(os.path.dirname(path)), os.path.basename(path).split(".")
        if rest[-1] == "report":
            yield path, report(design_in(folder, name))
        elif rest[-1] in ("run", "trace"):
            yield path, rows_and_trace(design_in(folder, name), held(folder, f"{rest[0]}.txt"))[("run", "trace").index(rest[-1])]


def wrong_files(top):
    found = [(path, held(path) == said) for path, said in wanted_files(top)]
    return len(found), [f"{path} isn't what the model says" for path, is_same in found if not is_same]


def wrong_twins(top):
    wrong = []
    for folder, name, one, other, level, wanted in TWINS:
        folder = os.path.join(top, "examples", folder)
        design = design_in(folder, name)
        streams = [stream_of(held(folder, f"{stimulus}.txt"), design) for stimulus in (one, other)]
        said = first_difference(*streams, design.lattice.number[level], design.lattice)
        if said != wanted:
            wrong.append(f"{one} and {other} of {folder} at {level}: {said} in place of {wanted}")
    return len(TWINS), wrong


def wrong_stimuli(top):
    """The stimuli of two programs."""
    folder = os.path.join(top, "examples", "machine")
    said = [(name, stimulus_text([words_of(held(folder, f"{one}.asm")) for one in programs], slices)) for name, programs, slices in STIMULI]
    return len(said), [f"{name}.txt of {folder} isn't what the model says" for name, text in said if held(folder, f"{name}.txt") != text]


def wrong_codes(top):
    """The example of each code of a design in docs/FAULTS.md."""
    sections = re.findall(r"### (E\d+):.*?\nExample:\n\n((?:    [^\n]*\n)+)", held(top, "docs", "FAULTS.md"), re.DOTALL)
    examples = [(code, re.sub("^    ", "", lines, flags=re.MULTILINE)) for code, lines in sections if code not in WITHOUT]
    said = [(code, code_of(text)) for code, text in examples]
    return len(said), [f"the example of {code} has {found}" for code, found in said if code != found]


def code_of(text):
    try:
        design_of(text, lattice_of(LATTICE))
    except Fault as fault:
        return fault.code
    return "no fault"


def main(top):
    files, wrong_by_file = wrong_files(top)
    twins, wrong_by_twin = wrong_twins(top)
    stimuli, wrong_by_stimulus = wrong_stimuli(top)
    codes, wrong_by_code = wrong_codes(top)
    wrong = wrong_by_file + wrong_by_twin + wrong_by_stimulus + wrong_by_code
    for what in wrong:
        print(what)
    print(f"the examples' rows and traces by the model: {files} files, {twins} pairs of streams, {stimuli} stimuli of programs, {codes} codes of faults; {len(wrong) or 'none'} wrong")
    return bool(wrong) or 0 in (files, codes)


if __name__ == "__main__":
    sys.exit(main(sys.argv[1]))
