"""Own widths of expressions, and the widths that places ask for. None is the width that isn't there."""

from .tree import Binary, Cell, Choice, Concatenation, Input, Memory, Number, Read, Register, Sized, Slice, Unary, Zext

COMPARISONS = ("==", "!=", "<", "<=")
SHIFTS = ("<<", ">>")
REDUCTIONS = ("&", "|", "^")
WIDEST = 64
DEEPEST = 4096


def sound(width):
    """The width, if it is one."""
    return width if width is not None and 1 <= width <= WIDEST else None


def index_width(declared):
    """The number of index bits of a memory, if its depth is a power of two from 2 to 4096."""
    if not isinstance(declared, Memory):
        return None
    depth = declared.depth.value
    return depth.bit_length() - 1 if 2 <= depth <= DEEPEST and depth & (depth - 1) == 0 else None


def width_of_entity(declared, *sorts):
    """The declared width of an entity of one of these sorts, if it is sound."""
    return sound(declared.width.value) if isinstance(declared, sorts) else None


def first_of(*widths):
    """The first width that is there."""
    return next((width for width in widths if width is not None), None)


class Widths:
    """Widths in a design, whose `declared` has the first declaration of each name, or the state."""

    def __init__(self, declared):
        self.declared = declared

    def own(self, expression):
        match expression:
            case Number():
                return None
            case Sized(width=width):
                return sound(width)
            case Read(name=name):
                return width_of_entity(self.declared.get(name.text), Input, Register)
            case Cell(name=name):
                return width_of_entity(self.declared.get(name.text), Memory)
            case Unary(sign=sign, operand=operand):
                return 1 if sign in REDUCTIONS else self.own(operand)
            case Binary(sign=sign, left=left, right=right):
                return self.own_of_binary(sign, left, right)
            case Choice(first=first, second=second):
                return first_of(self.own(first), self.own(second))
            case Zext(operand=operand, width=width):
                inner = self.own(operand)
                return sound(width) if inner is not None and inner <= width else None
            case Concatenation(parts=parts):
                widths = [self.own(part) for part in parts]
                return None if None in widths else sound(sum(widths))
            case Slice(operand=operand, high=high, low=low):
                inner = self.own(operand)
                return high - low + 1 if inner is not None and low <= high < inner else None

    def own_of_binary(self, sign, left, right):
        if sign in COMPARISONS:
            return 1
        if sign in SHIFTS:
            return self.own(left)
        return first_of(self.own(left), self.own(right))

    def asked_of_operands(self, expression, width):
        """The operands of an expression of this width, each with the width that it is asked for."""
        match expression:
            case Number() | Sized() | Read():
                return []
            case Cell(name=name, index=index):
                return [(index, index_width(self.declared.get(name.text)))]
            case Unary(sign=sign, operand=operand):
                return [(operand, None if sign in REDUCTIONS else width)]
            case Binary(sign=sign, left=left, right=right) if sign in COMPARISONS:
                common = first_of(self.own(left), self.own(right))
                return [(left, common), (right, common)]
            case Binary(sign=sign, left=left, right=right) if sign in SHIFTS:
                return [(left, width), (right, WIDEST if self.own(right) is None else None)]
            case Binary(left=left, right=right):
                return [(left, width), (right, width)]
            case Choice(condition=condition, first=first, second=second):
                return [(condition, 1), (first, width), (second, width)]
            case Concatenation(parts=parts):
                return [(part, None) for part in parts]
            case Slice(operand=operand) | Zext(operand=operand):
                return [(operand, None)]
