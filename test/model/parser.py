"""From a text to its tree, by the grammar of docs/LANGUAGE.md, or to its first read fault, E1 or E2.

Limits aside: of E18 nothing is known here, and no text that is drawn comes near a limit.
"""

from dataclasses import replace

from .tokens import KEYWORDS, KEYWORDS_OF_VERSION_2, Fault, tokens_of
from .tree import (
    Arm, Assign, Binary, Block, Case, Cell, Choice, Concatenation, Dynamic, Enforced, Fall, Goto, If, Input, JoinOf, LevelAt, LevelName, Memory, Name,
    Number, Numeral, Otherwise, Plain, Read, Register, SetTag, Sized, Slice, State, TagOf, Then, Tree, Unary, Write, Zext,
)

# The binary signs, loosest first.
BINARY_SIGNS = (("|",), ("^",), ("&",), ("==", "!="), ("<", "<="), ("<<", ">>"), ("+", "-"), ("*",))
UNARY_SIGNS = ("~", "-", "&", "|", "^")


def tree_of(text):
    """The tree of a text, or its first read fault."""
    return Parser(text).design()


class Parser:
    """Takes the tokens one after another. The first that can't stand where it stands is E2."""

    def __init__(self, text):
        self.tokens = tokens_of(text)
        self.at = 0
        self.version = 1
        self.keywords = KEYWORDS

    # Tokens.

    def token(self, ahead=0):
        return self.tokens[min(self.at + ahead, len(self.tokens) - 1)]

    def refuse(self):
        raise Fault("E2", self.token().place)

    def is_sign(self, sign, ahead=0):
        token = self.token(ahead)
        return token.sort == "sign" and token.text == sign

    def is_keyword(self, word):
        token = self.token()
        return token.sort == "name" and token.text == word and word in self.keywords

    def step(self):
        """Takes the token that is next, and says what it is."""
        token = self.token()
        self.at += 1
        return token

    def sign(self, sign):
        return self.step() if self.is_sign(sign) else self.refuse()

    def keyword(self, word):
        return self.step() if self.is_keyword(word) else self.refuse()

    def skip_sign(self, sign):
        """Takes this sign if it is next, and says whether it was."""
        return bool(self.is_sign(sign) and self.step())

    def skip_keyword(self, word):
        return bool(self.is_keyword(word) and self.step())

    def name(self):
        token = self.token()
        if token.sort != "name" or token.text in self.keywords:
            self.refuse()
        self.step()
        return Name(token.text, token.place)

    def numeral(self):
        token = self.token()
        if token.sort != "number":
            self.refuse()
        self.step()
        return Numeral(token.value, token.place)

    # Declarations and states.

    def design(self):
        self.first_line()
        declarations = []
        while not self.is_keyword("state"):
            declarations.append(self.declaration())
        states = self.states()
        if self.token().sort != "end":
            self.refuse()
        return Tree(self.version, tuple(declarations), states)

    def first_line(self):
        """`sapper 2;` in front makes a design of version 2; another second token is E2."""
        first = self.token()
        if (first.sort, first.text) != ("name", "sapper"):
            return
        self.step()
        if (self.token().sort, self.token().text) != ("number", "2"):
            self.refuse()
        self.step()
        self.version, self.keywords = 2, KEYWORDS_OF_VERSION_2
        self.sign(";")

    def declaration(self):
        if self.skip_keyword("input"):
            declared = Input(*self.name_and_width())
        elif self.skip_keyword("reg"):
            name, width = self.name_and_width()
            declared = Register(name, width, self.kind(), self.numeral() if self.skip_sign("=") else None)
        else:
            self.keyword("mem")
            declared = self.memory()
        self.sign(";")
        return declared

    def name_and_width(self):
        name = self.name()
        self.sign(":")
        return name, self.numeral()

    def memory(self):
        name, width = self.name_and_width()
        self.sign("[")
        depth = self.numeral()
        self.sign("]")
        return Memory(name, width, depth, self.kind())

    def kind(self):
        if self.skip_keyword("dynamic"):
            return Dynamic()
        self.keyword("enforced")
        return Enforced(self.name(), self.name() if self.skip_keyword("under") else None)

    def states(self):
        """The states that follow one another here."""
        found = []
        while self.is_keyword("state"):
            found.append(self.state())
        return tuple(found)

    def state(self):
        self.keyword("state")
        name, kind = self.name(), self.kind()
        self.sign("{")
        commands = []
        while not self.is_keyword("state") and not self.is_sign("}"):
            commands.append(self.command())
        body = Block(tuple(commands), self.token().place)
        children = self.states()
        self.sign("}")
        return State(name, kind, body, children)

    # Commands.

    def block(self):
        self.sign("{")
        commands = []
        while not self.is_sign("}"):
            commands.append(self.command())
        return Block(tuple(commands), self.step().place)

    def command(self):
        word = self.token().place
        if self.skip_keyword("if"):
            return If(word, self.bracketed(), self.block(), self.block() if self.skip_keyword("else") else None)
        if self.skip_keyword("case"):
            return self.case(word)
        simple, word = self.simple(), self.token().place
        if self.skip_sign(";"):
            return Plain(simple)
        if self.skip_keyword("otherwise"):
            return Otherwise(simple, word, self.block())
        self.keyword("then")
        accepted = self.block()
        self.keyword("otherwise")
        return Then(simple, word, accepted, self.block())

    def bracketed(self):
        self.sign("(")
        inside = self.expression()
        self.sign(")")
        return inside

    def case(self, word):
        subject = self.bracketed()
        self.sign("{")
        arms = [self.arm()]
        while not self.skip_keyword("else"):
            arms.append(self.arm())
        last = self.block()
        self.sign("}")
        return Case(word, subject, tuple(arms), last)

    def arm(self):
        constants = [self.constant()]
        while self.skip_sign(","):
            constants.append(self.constant())
        self.sign(":")
        return Arm(tuple(constants), self.block())

    def constant(self):
        token = self.token()
        if token.sort not in ("number", "sized"):
            self.refuse()
        self.step()
        return Number(token.place, token.place, token.value) if token.sort == "number" else Sized(token.place, token.place, *token.value)

    def simple(self):
        start = self.token().place
        if self.skip_keyword("goto"):
            return Goto(start, self.name())
        if self.skip_keyword("fall"):
            return Fall(start)
        if self.skip_keyword("setTag"):
            return self.set_tag(start)
        target = self.name()
        index = self.index() if self.is_sign("[") else None
        self.sign(":=")
        return Assign(start, target, self.expression()) if index is None else Write(start, target, index, self.expression())

    def index(self):
        self.sign("[")
        inside = self.expression()
        self.sign("]")
        return inside

    def set_tag(self, start):
        self.sign("(")
        target = self.name()
        index = self.index() if self.is_sign("[") else None
        self.sign(",")
        tag = self.tag_expression()
        self.sign(")")
        return SetTag(start, target, index, tag)

    # Expressions.

    def tag_expression(self):
        if self.skip_keyword("tag"):
            return TagOf(self.bracketed())
        if self.skip_keyword("level"):
            return LevelAt(self.bracketed())
        if self.skip_keyword("join"):
            return JoinOf(self.two_or_more("(", self.tag_expression, ")"))
        return LevelName(self.name())

    def two_or_more(self, opening, part, closing):
        self.sign(opening)
        parts = [part()]
        self.sign(",")
        parts.append(part())
        while self.skip_sign(","):
            parts.append(part())
        self.sign(closing)
        return tuple(parts)

    def expression(self):
        condition = self.binary(0)
        if not self.skip_sign("?"):
            return condition
        first = self.expression()
        self.sign(":")
        return Choice(condition.start, condition, first, self.expression())

    def binary(self, looseness):
        """Operators of this row of the table and of tighter ones; they group to the left."""
        if looseness == len(BINARY_SIGNS):
            return self.unary()
        left = self.binary(looseness + 1)
        while any(self.is_sign(sign) for sign in BINARY_SIGNS[looseness]):
            sign = self.step().text
            left = Binary(left.start, sign, left, self.binary(looseness + 1))
        return left

    def unary(self):
        token = self.token()
        if not any(self.is_sign(sign) for sign in UNARY_SIGNS):
            return self.sliced()
        self.step()
        return Unary(token.place, token.text, self.unary())

    def sliced(self):
        operand = self.primary()
        while self.skip_sign("["):
            high = self.numeral().value
            self.sign(":")
            operand = Slice(operand.start, operand, high, self.numeral().value)
            self.sign("]")
        return operand

    def primary(self):
        token = self.token()
        if token.sort in ("number", "sized"):
            return self.constant()
        if self.is_sign("("):
            return replace(self.bracketed(), start=token.place)
        if self.is_sign("{"):
            return Concatenation(token.place, self.two_or_more("{", self.expression, "}"))
        if self.skip_keyword("zext"):
            return self.zext(token.place)
        name = self.name()
        return Cell(token.place, name, self.index()) if self.is_index() else Read(token.place, name)

    def is_index(self):
        """After `NAME [`, a number followed by `:` begins a slice, all else an index."""
        return self.is_sign("[") and not (self.token(1).sort == "number" and self.is_sign(":", 2))

    def zext(self, start):
        self.sign("(")
        operand = self.expression()
        self.sign(",")
        width = self.numeral().value
        self.sign(")")
        return Zext(start, operand, width)
