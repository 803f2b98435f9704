"""Expressions and tag expressions drawn at random, well formed, and without parentheses wherever the grammar needs none."""

from .tokens import tokens_of

ARITHMETIC = ("+", "-", "*", "&", "|", "^", "<<", ">>")
# Those that bind tighter than a comparison.
TIGHT = ("+", "-", "*", "<<", ">>")
COMPARISONS = ("==", "!=", "<", "<=")
LOOSE = ("&", "|", "^")
MOST_TOKENS = 250


class Expressions:
    """Draws expressions over what can be read; what is listed twice is read twice as often.

    The methods follow the grammar: whole, binary, unary, operand. Each makes an expression of a width. Its place asks for that width, unless
    `own` says that the expression must have it by itself.
    """

    def __init__(self, draw, readable, memories, levels):
        self.draw = draw
        self.readable = readable
        self.memories = memories
        self.levels = levels

    def expression(self, width, own=False):
        return self.within_limit(lambda: self.whole(width, self.depth(), own))

    def tag_expression(self):
        return self.within_limit(lambda: self.tag(self.draw.choice((0, 1, 1, 2))))

    def within_limit(self, make):
        """What is made by the first call that makes no more tokens than an expression may have."""
        while True:
            made = make()
            if len(tokens_of(made)) <= MOST_TOKENS:
                return made

    def depth(self):
        return self.draw.choice((0, 0, 1, 1, 2, 3))

    def maybe(self, chance):
        return self.draw.random() < chance

    # By the grammar.

    def whole(self, width, depth, own):
        if depth == 0 or self.maybe(0.85):
            return self.binary(width, depth, own)
        arms = self.whole(width, depth - 1, own), self.whole(width, depth - 1, False)
        return f"{self.binary(1, depth - 1, False)} ? {arms[0]} : {arms[1]}"

    def binary(self, width, depth, own):
        if depth == 0 or self.maybe(0.4):
            return self.unary(width, depth, own)
        if width == 1 and self.maybe(0.5):
            return self.condition(depth)
        return self.chain(width, depth, own, ARITHMETIC)

    def chain(self, width, depth, own, signs):
        """Operands of one width with signs between them: however they group, all of it has that width."""
        operands = [self.unary(width, depth - 1, own)] + [self.unary(width, depth - 1, False) for _ in range(self.draw.choice((1, 1, 2, 3)))]
        return operands[0] + "".join(f" {self.draw.choice(signs)} {operand}" for operand in operands[1:])

    def condition(self, depth):
        """Comparisons, and perhaps something of one bit, with signs between them that bind looser."""
        parts = [self.comparison(depth) for _ in range(self.draw.choice((1, 1, 2)))]
        if self.maybe(0.3):
            parts.append(self.unary(1, depth - 1, True))
        self.draw.shuffle(parts)
        return parts[0] + "".join(f" {self.draw.choice(LOOSE)} {part}" for part in parts[1:])

    def comparison(self, depth):
        """The width of the operands is the own width of one of them."""
        width = self.any_width()
        own = self.draw.choice(((True, False), (False, True), (True, True)))
        sides = [self.chain(width, depth - 1, own_side, TIGHT) if depth > 1 else self.unary(width, 0, own_side) for own_side in own]
        text = f"{sides[0]} {self.draw.choice(COMPARISONS)} {sides[1]}"
        return f"{text} {self.draw.choice(('==', '!='))} {self.operand(1, 0, True)}" if self.maybe(0.1) else text

    def unary(self, width, depth, own):
        if depth == 0 or self.maybe(0.8):
            return self.operand(width, depth, own)
        if width == 1 and self.maybe(0.6):
            return self.draw.choice(LOOSE) + self.operand(self.any_width(), depth - 1, True)
        return self.draw.choice("~-") + self.unary(width, depth - 1, own)

    def operand(self, width, depth, own):
        if depth == 0 or self.maybe(0.3):
            return self.leaf(width, own)
        return self.draw.choice((self.bracketed, self.bracketed, self.cell, self.slice, self.zext, self.concatenation, self.shift))(width, depth - 1, own)

    def leaf(self, width, own):
        if self.maybe(0.15):
            return self.cell(width, 0, own)
        if self.maybe(0.8):
            return self.fitted(self.draw.choice([one for one in self.readable if one.width == width] or self.readable), width)
        return self.sized(width) if own or self.maybe(0.5) else self.number(width)

    def fitted(self, one, width):
        """What is read, cut or widened to a width."""
        if one.width == width:
            return one.name
        if one.width < width:
            return f"zext({one.name}, {width})"
        low = self.draw.randint(0, one.width - width)
        return f"{one.name}[{low + width - 1}:{low}]"

    def number(self, width):
        return "0" * (self.draw.random() < 0.05) + str(self.value(width))

    def sized(self, width):
        value = self.value(width)
        return self.draw.choice((f"{width}'d{value}", f"{width}'h{value:x}", f"{width}'h{value:X}", f"0{width}'d00{value}"))

    def value(self, width):
        return self.draw.choice((0, 1, 2**width - 1, self.draw.randrange(2**width), self.draw.randrange(2**width)))

    def any_width(self):
        """Mostly the width of something that can be read."""
        return self.draw.choice([one.width for one in self.readable] + [self.draw.randint(1, 64)])

    # Operands with parts.

    def bracketed(self, width, depth, own):
        return f"({self.whole(width, depth, own)})"

    def cell(self, width, depth, own):
        memories = [one for one in self.memories if one.width == width]
        if not memories:
            return self.fitted(self.draw.choice(self.readable), width)
        memory = self.draw.choice(memories)
        return f"{memory.name}[{self.whole(memory.index_width, depth, False)}]"

    def slice(self, width, depth, own):
        whole = self.draw.choice([one.width for one in self.readable if one.width >= width] + [min(64, width + self.draw.randint(0, 9))])
        low = self.draw.randint(0, whole - width)
        return f"{self.operand(whole, depth, True)}[{low + width - 1}:{low}]"

    def zext(self, width, depth, own):
        narrow = self.draw.choice([one.width for one in self.readable if one.width <= width] + [self.draw.randint(1, width)])
        return f"zext({self.whole(narrow, depth, True)}, {width})"

    def concatenation(self, width, depth, own):
        if width == 1:
            return self.leaf(width, own)
        cuts = sorted(self.draw.sample(range(1, width), min(width - 1, self.draw.choice((1, 1, 2)))))
        parts = [high - low for low, high in zip([0] + cuts, cuts + [width])]
        return "{" + ", ".join(self.whole(part, depth, True) for part in parts) + "}"

    def shift(self, width, depth, own):
        """With a count of any width."""
        count = self.operand(self.any_width(), depth, True) if self.maybe(0.5) else str(self.draw.randint(0, width + 1))
        return f"({self.operand(width, depth, own)} {self.draw.choice(('<<', '>>'))} {count})"

    # Tag expressions.

    def tag(self, depth):
        if depth == 0 or self.maybe(0.2):
            return self.draw.choice(self.levels)
        if self.maybe(0.3):
            return "join(" + ", ".join(self.tag(depth - 1) for _ in range(self.draw.choice((2, 2, 3)))) + ")"
        return f"{self.draw.choice(('tag', 'level'))}({self.whole(self.any_width(), depth - 1, True)})"
