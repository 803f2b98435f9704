"""The time-sliced machine without its design: assembly, the instruction table, slices of time, and the texts of two programs, by docs/COMMANDS.md and docs/FORMATS.md."""

import re
from dataclasses import dataclass, field

WORDS = CELLS = 16
NAMES = ("a", "b")
INPUTS = ("wa", "wb")
# By their numbers. A word is 256 times the number of its operation, and its number below that.
OPERATIONS = ("nop", "ldi", "ld", "st", "add", "sub", "jmp", "jz", "halt")
ALONE = ("nop", "halt")
CYCLES_OF_A_SLICE, CYCLES_BEFORE = 6, 17
INSTRUCTIONS_OF_A_SLICE = 3


class AsmFault(Exception):
    """A rule that a program breaks, and its line."""

    def __init__(self, code, line):
        super().__init__(f"{code} line {line}")
        self.code = code
        self.line = line


# Assembly.


def words_of(text):
    """The sixteen words of a text, or its first fault."""
    *ended, rest = text.split("\n")
    words = [word_of(line, number, number <= len(ended)) for number, line in enumerate(ended + [rest] * bool(rest), 1)]
    return words + [0] * (WORDS - len(words))


def word_of(line, number, is_ended):
    """The word of a line, or the first rule that it breaks."""
    if number > WORDS:
        raise AsmFault("B3", number)
    if not is_ended:
        raise AsmFault("B4", number)
    if line in ALONE:
        return 256 * OPERATIONS.index(line)
    found = re.fullmatch(r"([a-z]+) ([0-9]{1,3})", line)
    if not found or found[1] not in OPERATIONS or found[1] in ALONE:
        raise AsmFault("B1", number)
    if int(found[2]) > (255 if found[1] == "ldi" else 15):
        raise AsmFault("B2", number)
    return 256 * OPERATIONS.index(found[1]) + int(found[2])


# The instruction table.


@dataclass
class User:
    """A user's state."""

    words: list
    pc: int = 0
    acc: int = 0
    cells: list = field(default_factory=lambda: [0] * CELLS)

    def step(self):
        """One instruction."""
        number, operand = divmod(self.words[self.pc], 256)
        k, following = operand % 16, (self.pc + 1) % 16
        match OPERATIONS[number] if number < len(OPERATIONS) else "nop":
            case "ldi":
                self.acc = operand
            case "ld":
                self.acc = self.cells[k]
            case "st":
                self.cells[k] = self.acc
            case "add":
                self.acc = (self.acc + self.cells[k]) % 256
            case "sub":
                self.acc = (self.acc - self.cells[k]) % 256
            case "jmp":
                following = k
            case "jz" if self.acc == 0:
                following = k
            case "halt":
                following = self.pc
        self.pc = following


def instructions(user, slices):
    """How many instructions a user, 0 or 1, has done after so many slices: the first is a's, and they take turns."""
    return INSTRUCTIONS_OF_A_SLICE * ((slices + 1 - user) // 2)


def slice_by_slice(user, words, slices):
    """A user before the first slice and behind each; it is one and the same object."""
    one = User(words)
    yield one
    for number in range(slices):
        for _ in range(instructions(user, number), instructions(user, number + 1)):
            one.step()
        yield one


def after(user, words, slices):
    """A user with these words after so many slices."""
    for one in slice_by_slice(user, words, slices):
        pass
    return one


# Texts.


def cycles(slices):
    return CYCLES_BEFORE + CYCLES_OF_A_SLICE * slices


def stimulus_text(words, slices):
    """What `asm` writes for the words of both users."""
    lines = [f"{one}@a {other}@b" for one, other in zip(*words)]
    return "\n".join([*lines, f"0@low 0@low *{cycles(slices) - WORDS}", ""])


def users_text(words, slices):
    """What `cpu` writes for the words of both users."""
    users = [after(user, own, slices) for user, own in enumerate(words)]
    return "".join(f"{name} pc={user.pc} acc={user.acc}\n" for name, user in zip(NAMES, users))


def of_both(texts):
    """The words of two programs, or the line of the first refusal, that of the first before that of the second."""
    words = []
    for number, text in enumerate(texts, 1):
        try:
            words.append(words_of(text))
        except AsmFault as fault:
            return None, f"asm {number}: {fault}\n"
    return words, None


# Words that come at any level.


def words_taken(stream, user, lattice):
    """The words that a stream brings to a user: in the first sixteen cycles those at or below its level, and 0 in place of the others."""
    return [tagged.value if is_taken(tagged, user, lattice) else 0 for tagged in (inputs[INPUTS[user]] for inputs in stream[:WORDS])]


def is_taken(tagged, user, lattice):
    return lattice.is_at_or_below(tagged.level, lattice.number[NAMES[user]])


def refusals(stream, lattice):
    """The trace of a stream: the words above their users, and nothing else."""
    lines = []
    for cycle, inputs in enumerate(stream[:WORDS], 1):
        for user, name in enumerate(NAMES):
            if not is_taken(inputs[INPUTS[user]], user, lattice):
                lines.append(f"cycle {cycle}: site {user + 1} write p{name} at {name}\n")
    return "".join(lines)
