"""The questions about a module and its design, one after another, and what is told of the answers."""

import itertools
import os
import shutil
import tempfile
import time
import tomllib

from cells import cells_held, copies_by_cells
from gates import FLOWS, WITH_STARTS, WITHOUT_STARTS, Gates
from interface import NotTheDesigns, interface_of, module_read
from judge import Judge
from model.design import design_of
from model.lattice import Lattice
from model.tokens import Fault
from pairs import clock, judged, pair_of, table
from question import COPIES, Question, copies_of_text, keeping
from solvers import Setting, ToolFailed, solver_for

# What is asked at a level: the wire that is to be 1, in which step, and what is told where no pair is found, one is, or there is no answer.
ASKED = (
    ("refusals", 1, {False: "refusals agree", True: "REFUSALS DIFFER", None: "refusals UNANSWERED"}),
    ("states", 2, {False: "states agree", True: "STATES DIFFER", None: "states UNANSWERED"}),
    ("kept", 2, {False: "states are kept", True: "STATES AREN'T KEPT", None: "kept UNANSWERED"}),
)
PREMISES = {True: "premises can be met", False: "PREMISES CAN'T BE MET", None: "premises UNANSWERED"}
FIRST = (
    ("states", {False: "agrees with itself", True: "DOESN'T AGREE WITH ITSELF", None: "agreement UNANSWERED"}),
    ("kept", {False: "is kept", True: "ISN'T KEPT", None: "kept UNANSWERED"}),
)
FOUND = {
    "refusals": "refusals that don't agree",
    "states": "states after the cycle that don't agree",
    "kept": "a state after the cycle that isn't kept",
}


class Unusable(Exception):
    """Why a file can't be used, in one line."""


def read(path):
    try:
        with open(path, encoding="latin-1", newline="") as file:
            return file.read()
    except OSError as error:
        raise Unusable(f"{path}: {error.strerror}") from error


def lattice_read(path):
    try:
        document = tomllib.loads(read(path))
        lattice = Lattice(document["levels"], document["below"])
        for pair in itertools.combinations(lattice.levels, 2):
            lattice.join(*pair)
        return lattice
    except (tomllib.TOMLDecodeError, KeyError, ValueError, TypeError, StopIteration) as error:
        raise Unusable(f"{path}: it isn't read as a lattice file") from error


class Subject:
    """A module with its design, as files."""

    def __init__(self, lattice_file, design_file, module_file):
        self.lattice = lattice_read(lattice_file)
        try:
            design = design_of(read(design_file), self.lattice)
        except Fault as fault:
            raise Unusable(f"{design_file}: {fault}") from fault
        self.interface = interface_of(design)
        self.lattice_file, self.module_file = lattice_file, module_file
        self.text = read(module_file)
        try:
            self.module = module_read(self.text, self.interface)
        except NotTheDesigns as error:
            raise Unusable(f"{module_file} isn't the module of {design_file}: {error}") from error


class Certifying:
    """Questions about a subject. `tell` gets each line. `found` has of each pair the level, the
    wire and what is against it once it was clocked; `failed` the names of the questions that weren't answered as wanted, `measured` of each level the seconds
    and the variables of its questions."""

    def __init__(self, subject, solver=None, seconds=600, keep=None, tell=print):
        self.subject = subject
        self.asked_solver = solver
        self.seconds = seconds
        self.keep = keep
        self.tell = tell
        self.found = []
        self.failed = []
        self.measured = []

    @property
    def holds(self):
        """Whether each answer so far is the one that is wanted."""
        return not self.failed

    # The text, and the gates.

    def text(self, levels, until_found=False):
        """All questions about the text, at each level or until one fails."""
        subject = self.subject
        # (an SMT solver has arrays for memories; `sat` would need a register for each cell, and gets the cells that are looked at)
        copies_of = copies_of_text if self.asked_solver not in (None, "sat") else copies_by_cells
        question = Question(subject.interface, subject.module, copies_of(subject.interface, subject.module, subject.text))
        with tempfile.TemporaryDirectory() as folder:
            least = len(COPIES) * (len(subject.module.edges) + (cells_held(subject.module) if copies_of is copies_by_cells else 0)) + 1
            solver = self.solver(question.text(), folder, "question", Setting(registers=(least, least + len(subject.interface.memories))))
            self.first(solver, question)
            for level in levels:
                if until_found and self.failed:
                    break
                self.level(solver, question, level, folder)

    def gates(self, levels, flow):
        """All questions about the netlist that a synthesis leaves."""
        subject = self.subject
        with tempfile.TemporaryDirectory() as folder:
            gates = Gates(subject.module, subject.interface, subject.module_file, flow, folder)
            left_out = f"; left out: {', '.join(gates.left_out[:8])}{' ..' * (len(gates.left_out) > 8)}" if gates.left_out else ""
            self.tell(f"gates by {flow}: {gates.cells()} cells{left_out}")
            beside = gates.beside()
            self.equivalence(gates, beside, folder, flow)
            question = Question(subject.interface, subject.module, gates.copies())
            solver = self.solver(question.text(), folder, f"question_{flow}", Setting(beside, WITH_STARTS))
            self.first_of_gates(solver)
            solver = self.solver(question.text(), folder, f"question_{flow}", Setting(beside, WITHOUT_STARTS))
            self.first(solver, question)
            for level in levels:
                self.level(solver, question, level, None)

    def solver(self, text, folder, name, setting):
        """A solver that is asked about the text of a question."""
        with open(os.path.join(folder, "question.v"), "w", encoding="ascii") as file:
            file.write(text)
        if self.keep:
            shutil.copy(os.path.join(folder, "question.v"), os.path.join(self.keep, f"{name}.v"))
        # (only `sat` looks at where the registers of a netlist start)
        return solver_for("sat" if setting.beside else self.asked_solver, folder, setting)

    def want(self, name, answer, wanted):
        if answer.found is not wanted:
            self.failed.append(name)
        return answer.found

    # Questions.

    def equivalence(self, gates, beside, folder, flow):
        begun = time.monotonic()
        solver = self.solver(gates.equivalence(self.subject.text), folder, f"equivalence_{flow}", Setting(beside, WITHOUT_STARTS))
        asked = ((None, 1, True), ("refusals", 1, False), ("states", 2, False))
        answers = [self.want("gates and text", solver.ask(["premises"], denied, step, None, self.seconds), wanted) for denied, step, wanted in asked]
        told = "UNANSWERED" if None in answers else "they do the same" if answers == [True, False, False] else "THEY DIFFER, or can't be compared"
        self.tell(f"gates and text: {told} ({time.monotonic() - begun:.1f} s)")

    def first(self, solver, question):
        """The first state, at all levels at once: it is the design's, agrees with itself and is kept."""
        module, starts = self.subject.module, question.interface.starts()
        told = [f"{name} STARTS WITH {module.starts[name]}, BY THE DESIGN WITH {start}" for name, start in starts.items() if module.starts[name] != start]
        self.failed += ["first"] * bool(told)
        told = told or ["is the design's"]
        for denied, texts in FIRST:
            told.append(texts[self.want("first", solver.ask(["first"], denied, 1, None, self.seconds), False)])
        self.tell(f"first state: {', '.join(told)}")

    def first_of_gates(self, solver):
        answer = self.want("gates start", solver.ask([], "first", 1, None, self.seconds), False)
        self.tell(f"the gates start {({False: 'as the text does', True: 'OTHERWISE THAN THE TEXT', None: 'UNANSWERED'})[answer]}")

    def level(self, solver, question, level, folder):
        """The four answers at a level, and each pair that was found. A pair of a text is clocked, in the folder."""
        name, code = self.subject.lattice.names[level], self.subject.lattice.code(level)
        begun, told, found, variables = time.monotonic(), [], [], 0
        for denied, step, texts in ASKED:
            answer = solver.ask(["premises"], denied, step, code, self.seconds)
            told.append(texts[self.want(denied, answer, False)])
            variables = max(variables, answer.variables or 0)
            if answer.found:
                found.append((denied, answer))
        told.append(PREMISES[self.want("premises", solver.ask(["premises"], None, 1, code, self.seconds), True)])
        seconds, size = time.monotonic() - begun, f", {variables:,} variables" if variables else ""
        self.measured.append((seconds, variables))
        self.tell(f"{name}: {', '.join(told)} ({seconds:.1f} s by {solver.name}{size})")
        for denied, answer in found:
            self.pair(question, level, denied, answer, folder)

    def pair(self, question, level, denied, answer, folder):
        """Writes a pair that was found, clocked once more."""
        judge = Judge(self.subject.interface, keeping(self.subject.module), level)
        pair = pair_of(question, answer.steps)
        why = "it is one of the netlist; what is after the cycle isn't shown" if folder is None else "there is nothing here that can"
        try:
            if folder:
                clock(pair, question, self.subject, folder)
        except ToolFailed as error:
            why = str(error)
        self.tell(f"  A pair for {FOUND[denied]} at {self.subject.lattice.names[level]}:")
        self.tell("\n".join(table(pair, judge)))
        against = judged(pair, judge, denied) if pair.by else None
        self.found.append((level, denied, against))
        if pair.by is None:
            self.tell(f"  Not clocked: {why}.")
        elif against:
            self.tell(f"  Clocked by {pair.by}, it is so: {', '.join(against)}.")
        else:
            self.tell(f"  Clocked by {pair.by}, it is NOT so: the pair isn't confirmed.")
