"""Values and tags of expressions, and of tag expressions."""

from typing import NamedTuple

from .tree import Binary, Cell, Choice, Concatenation, JoinOf, LevelAt, LevelName, Number, Read, Sized, Slice, TagOf, Unary, Zext
from .widths import COMPARISONS, SHIFTS, first_of

COMPARE = {"==": int.__eq__, "!=": int.__ne__, "<": int.__lt__, "<=": int.__le__}
COMPUTE = {"+": int.__add__, "-": int.__sub__, "*": int.__mul__, "&": int.__and__, "|": int.__or__, "^": int.__xor__}


class Tagged(NamedTuple):
    """A value with its level."""

    value: int
    level: int


class Told(NamedTuple):
    """What a tag expression tells: the new level, and the level of the information in it."""

    level: int
    information: int


class Evaluator:
    """Evaluates over a store, which has `read(name)` and `cell(name, index)`; both answer what is Tagged."""

    def __init__(self, design, store):
        self.widths = design.widths
        self.lattice = design.lattice
        self.store = store

    def evaluate(self, expression, asked=None):
        """The value and the tag of an expression whose place asks for a width, or for none."""
        if isinstance(expression, (Number, Sized)):
            return Tagged(expression.value, self.lattice.bottom)
        if isinstance(expression, Read):
            return self.store.read(expression.name.text)
        width = first_of(self.widths.own(expression), asked)
        operands = [self.evaluate(*one) for one in self.widths.asked_of_operands(expression, width)]
        values = [operand.value for operand in operands]
        level = self.lattice.join(*(operand.level for operand in operands))
        if isinstance(expression, Cell):
            cell = self.store.cell(expression.name.text, values[0])
            return Tagged(cell.value, self.lattice.join(level, cell.level))
        return Tagged(self.value(expression, values, width), level)

    def value(self, expression, values, width):
        """The value of an expression of this width, from the values of its operands."""
        match expression:
            case Unary(sign="~"):
                return ~values[0] % 2**width
            case Unary(sign="-"):
                return -values[0] % 2**width
            case Unary(sign=sign, operand=operand):
                return reduction(sign, values[0], self.widths.own(operand))
            case Binary(sign=sign):
                return binary(sign, *values, width)
            case Choice():
                return values[1] if values[0] else values[2]
            case Slice(high=high, low=low):
                return (values[0] >> low) % 2 ** (high - low + 1)
            case Zext():
                return values[0]
            case Concatenation(parts=parts):
                return joined([self.widths.own(part) for part in parts], values)

    def tell(self, tag):
        """A tag expression's level, and the level of the information in it."""
        match tag:
            case LevelName(name=name):
                return Told(self.lattice.number[name.text], self.lattice.bottom)
            case TagOf(operand=operand):
                level = self.evaluate(operand).level
                return Told(level, level)
            case LevelAt(operand=operand):
                place, level = self.evaluate(operand)
                return Told(place if place < len(self.lattice.names) else self.lattice.top, level)
            case JoinOf(parts=parts):
                told = [self.tell(part) for part in parts]
                return Told(self.lattice.join(*(one.level for one in told)), self.lattice.join(*(one.information for one in told)))


def reduction(sign, value, width):
    """All ones, any one, or an odd number of ones."""
    ones = bin(value).count("1")
    return int({"&": ones == width, "|": ones > 0, "^": ones % 2 == 1}[sign])


def binary(sign, left, right, width):
    """Arithmetic is modulo 2 to the width; shifting by the width or more gives 0."""
    if sign in COMPARISONS:
        return int(COMPARE[sign](left, right))
    if sign not in SHIFTS:
        return COMPUTE[sign](left, right) % 2**width
    if right >= width:
        return 0
    return (left << right) % 2**width if sign == "<<" else left >> right


def joined(widths, values):
    """The parts of a concatenation beside one another, the first one highest."""
    whole = 0
    for width, value in zip(widths, values):
        whole = whole << width | value
    return whole
