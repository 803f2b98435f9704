"""Value change dumps: the one of a module's run, the reading of one with its first fault, and its rows."""

import re
from typing import NamedTuple

from .modules import Clocked, fields_of, numbers_of, tag_of, tag_width
from .streams import cycles_of

DIGITS = [chr(byte) for byte in range(33, 127)]
FIRST_LINES = ("$timescale 1ns $end", "$scope module top $end")
LAST_LINES = ("$upscope $end", "$enddefinitions $end")
NUMBER, ID = "(0|[1-9][0-9]*)", "([!-~]+)"
VARIABLE = re.compile(rf"\$var reg {NUMBER} {ID} ([^ ]+) \$end", re.DOTALL)
BLOCK = re.compile(f"#{NUMBER}")
CHANGE = re.compile(f"b([01]+) {ID}")
NAME = re.compile("[A-Za-z_][A-Za-z0-9_]*")
KEYWORDS = "module endmodule input output reg wire assign initial always posedge if for integer clk i".split(" ")
WIDTHS = [str(width) for width in range(1, 65)]


class WaveFault(Exception):
    """The first fault of a dump."""

    def __init__(self, code, line):
        super().__init__(code, line)
        self.code, self.line = code, line

    def __str__(self):
        return f"{self.code} line {self.line}"


class Variable(NamedTuple):
    name: str
    width: int


class Wave(NamedTuple):
    """Variables, and for each block their numbers after it."""

    variables: list
    blocks: list


def id_of(number):
    """A number in base 94, the highest digit first."""
    digits = DIGITS[number % 94]
    while number := number // 94:
        digits = DIGITS[number % 94] + digits
    return digits


# The dump of a run.


def wave_of_run(module, stimulus, lattice):
    """What a module's output registers have at the start and after each cycle of a stimulus."""
    fields, run = fields_of(module, lattice), Clocked(module)
    variables = [Variable(port.name, port.width) for port in module.output_registers()]
    blocks = [[run.values[one.name] for one in variables]]
    for line in stimulus.splitlines():
        for pieces in cycles_of(line):
            run.cycle(numbers_of(fields, pieces, lattice))
            blocks.append([run.values[one.name] for one in variables])
    return Wave(variables, blocks)


def dump_of(wave):
    lines = [*FIRST_LINES]
    lines += [f"$var reg {one.width} {id_of(number)} {one.name} $end" for number, one in enumerate(wave.variables)]
    lines += LAST_LINES
    for block, (before, numbers) in enumerate(zip([None, *wave.blocks], wave.blocks)):
        lines.append(f"#{block}")
        lines += [
            f"b{number:0{variable.width}b} {id_of(place)}"
            for place, (variable, number) in enumerate(zip(wave.variables, numbers))
            if before is None or before[place] != number
        ]
    return "".join(line + "\n" for line in lines)


# The reading of a dump.


class Lines:
    """The lines of a text one after another, without their LF. At its end, or where the next line has none, stands Y1."""

    def __init__(self, text):
        *self.whole, self.rest = text.split("\n")
        self.number = 0

    def is_at_end(self):
        return self.number == len(self.whole) and not self.rest

    def next(self):
        self.number += 1
        self.refuse("Y1", self.number > len(self.whole))
        return self.whole[self.number - 1]

    def matched(self, form):
        """What stands in the places of a form."""
        found = form.fullmatch(self.next())
        self.refuse("Y1", found is None)
        return found.groups()

    def refuse(self, code, where):
        if where:
            raise WaveFault(code, self.number)


def wave_of(text):
    """The one reading of a dump. Raises its first fault: at each line the codes in turn."""
    lines = Lines(text)
    for wanted in FIRST_LINES:
        lines.refuse("Y1", lines.next() != wanted)
    variables = variables_of(lines)
    lines.refuse("Y1", lines.next() != LAST_LINES[1])
    lines.refuse("Y4", lines.matched(BLOCK) != ("0",))
    return Wave(variables, blocks_of(lines, variables))


def variables_of(lines):
    """The variables, up to the line behind them."""
    variables, names = [], {*KEYWORDS}
    while (line := lines.next()) != LAST_LINES[0]:
        found = VARIABLE.fullmatch(line)
        lines.refuse("Y1", found is None)
        width, identifier, name = found.groups()
        is_name = NAME.fullmatch(name) and name not in names
        lines.refuse("Y2", identifier != id_of(len(variables)) or width not in WIDTHS or not is_name)
        variables.append(Variable(name, int(width)))
        names.add(name)
    return variables


def blocks_of(lines, variables):
    """The numbers after each block, from the line behind `#0` on."""
    numbers_by_id = {id_of(number): number for number in range(len(variables))}
    blocks, numbers, last = [], [None] * len(variables), -1
    while not lines.is_at_end():
        line = lines.next()
        is_block, change = BLOCK.fullmatch(line), CHANGE.fullmatch(line)
        lines.refuse("Y1", not is_block and not change)
        if is_block:
            lines.refuse("Y4", is_block[1] != str(len(blocks) + 1))
            lines.refuse("Y5", None in numbers)
            blocks.append(numbers)
            numbers, last = list(numbers), -1
            continue
        bits, identifier = change.groups()
        place = numbers_by_id.get(identifier)
        lines.refuse("Y3", place is None or place <= last or len(bits) != variables[place].width)
        lines.refuse("Y5", blocks and numbers[place] == int(bits, 2))
        numbers[place], last = int(bits, 2), place
    lines.number += 1
    lines.refuse("Y5", None in numbers)
    return [*blocks, numbers]


# Rows.


def rows_of(wave, lattice):
    """The rows of a reading: block 0 has none."""
    places = {one.name: place for place, one in enumerate(wave.variables)}
    tags = {one.name for one in wave.variables if one.width == tag_width(lattice)}
    shown = [(name[2:], places[name], places[tag_of(name, tags)]) for name in places if tag_of(name, tags)]
    names_by_code = {lattice.code(level): name for level, name in enumerate(lattice.names)}
    rows = []
    for cycle, numbers in enumerate(wave.blocks[1:], 1):
        fields = [f" {name}={numbers[value]}@{names_by_code.get(numbers[tag], f'#{numbers[tag]}')}" for name, value, tag in shown]
        rows.append(f"cycle {cycle}:{''.join(fields)}\n")
    return "".join(rows)
