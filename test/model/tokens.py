"""The tokens of a design's text, taken longest first."""

import re
from dataclasses import dataclass

KEYWORDS = frozenset("input reg mem state dynamic enforced under if else goto fall setTag otherwise tag level join zext".split())
KEYWORDS_OF_VERSION_2 = KEYWORDS | {"then", "case"}
LARGEST_NUMBER = 2**64 - 1

SPACE = re.compile(r"[ \t\r\n]+|//[^\n]*")
NAME = re.compile(r"[A-Za-z_][A-Za-z0-9_]*")
NUMBER = re.compile(r"[0-9]+")
SIZED_NUMBER = re.compile(r"([0-9]+)'(?:d([0-9]+)|h([0-9A-Fa-f]+))")
SIGN = re.compile(r":=|==|!=|<=|<<|>>|[(){}\[\]:;,?=<+\-*&|^~]")


class Fault(Exception):
    """The first fault of a design: its code and its place, a line and a column from 1."""

    def __init__(self, code, place):
        super().__init__(code, place)
        self.code = code
        self.place = place

    def __str__(self):
        return f"{self.code} {self.place[0]}:{self.place[1]}"


@dataclass(frozen=True)
class Token:
    """A token: its sort (name, number, sized, sign or end), its text, where it begins, and the number or the width and number of it."""

    sort: str
    text: str
    place: tuple
    offset: int
    value: object = None


def tokens_of(text):
    """All tokens of a text and an `end` behind them, or the first E1. Lines and columns count from 1; a line ends at LF alone."""
    tokens, offset, line, before_line = [], 0, 1, -1
    while offset < len(text):
        space = SPACE.match(text, offset)
        if space:
            offset = space.end()
            ended = text.count("\n", space.start(), offset)
            if ended:
                line, before_line = line + ended, text.rfind("\n", space.start(), offset)
        else:
            tokens.append(token_at(text, offset, (line, offset - before_line)))
            offset += len(tokens[-1].text)
    return tokens + [Token("end", "", (line, offset - before_line), offset)]


def token_at(text, offset, place):
    """The token that begins at a byte."""
    for sort, pattern in (("name", NAME), ("sized", SIZED_NUMBER), ("number", NUMBER), ("sign", SIGN)):
        found = pattern.match(text, offset)
        if found:
            return Token(sort, found.group(), place, offset, value_of(sort, found, text, place))
    raise Fault("E1", place)


def number_of(digits, base):
    """The number that digits write. More digits than the largest number has write a larger one, whichever they are."""
    digits = digits.lstrip("0") or "0"
    return int(digits, base) if len(digits) <= len(str(LARGEST_NUMBER)) else LARGEST_NUMBER + 1


def value_of(sort, found, text, place):
    """The value of a number, the width and the value of a sized one; E1 where it is too large or something is directly behind it."""
    if sort not in ("number", "sized"):
        return None
    behind = "[A-Za-z_']" if sort == "number" else "[A-Za-z0-9_']"
    if sort == "number":
        numbers = (number_of(found.group(), 10),)
    else:
        width, decimal, hexadecimal = found.groups()
        numbers = (number_of(width, 10), number_of(decimal, 10) if decimal else number_of(hexadecimal, 16))
    if max(numbers) > LARGEST_NUMBER or re.compile(behind).match(text, found.end()):
        raise Fault("E1", place)
    return numbers if sort == "sized" else numbers[0]
