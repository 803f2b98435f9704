"""Dumps with a damage drawn at random, which may leave a dump whole."""

import re

BYTES = " \t\r\n0129b#!\"$~x\x00\x7f\x80\xe9"
NUMBERS = ("", "0", "00", "1", "7", "08", "64", "65", "-1", "+1", "1x", "4294967296", "18446744073709551615", "18446744073709551616", "9" * 30)
NAMES = ("", "v x", "8x", "v-x", "clk", "i", "wire", "_", "begin", "v\tx", "v_x\r", "caf\xe9", "v_x0", "t_x0")


class Damages:
    """The damages of one dump. Each answers the damaged text."""

    def __init__(self, draw, dump):
        self.draw = draw
        self.dump = dump
        self.lines = dump.split("\n")[:-1]

    def all(self):
        return [
            self.lost_line,
            self.lost_line,
            self.doubled_line,
            self.moved_line,
            self.exchanged_lines,
            self.exchanged_neighbours,
            self.empty_line,
            self.line_of_elsewhere,
            self.lost_end,
            self.cut,
            self.cut_behind_a_line,
            self.added_lines,
            self.carriage_return,
            self.carriage_returns,
            self.tab,
            self.space,
            self.lost_space,
            self.odd_byte,
            self.exchanged_byte,
            self.lost_byte,
            self.other_number_of_block,
            self.other_width,
            self.other_name,
            self.zero_digit,
            self.other_identifier,
            self.other_bit,
            self.bit_more,
            self.bit_less,
            self.same_change,
        ]

    # How a text is damaged.

    def text(self, first, behind, inside):
        """The lines from one on up to another give way."""
        return "".join(line + "\n" for line in [*self.lines[:first], *inside, *self.lines[behind:]])

    def any_line(self, form=""):
        """The place of a line that begins so: one of any kind as likely as another, the first and the last of a kind too."""
        kinds = {}
        for place, line in enumerate(self.lines):
            if re.match(form, line):
                kinds.setdefault(re.sub("[01]+", "", line[:1]) or "b", []).append(place)
        if not kinds:
            return self.draw.randrange(len(self.lines))
        places = kinds[self.draw.choice(sorted(kinds))]
        ends = [place for place in places if place + 1 == len(self.lines) or self.lines[place + 1][:1] == "#" or self.lines[place - 1][:1] == "#"]
        return self.draw.choice((places[0], places[-1], self.draw.choice(places), self.draw.choice(ends or places)))

    def replaced(self, place, line):
        return self.text(place, place + 1, [line])

    def edited(self, form, edit):
        """A line of a form, with what matches its group edited."""
        place = self.any_line(form)
        found = re.search(form, self.lines[place])
        if not found:
            return self.replaced(place, edit(self.lines[place]))
        line, (start, end) = self.lines[place], found.span(1)
        return self.replaced(place, line[:start] + edit(found[1]) + line[end:])

    def at_any_byte(self, edit):
        """A line with what stands from a byte on edited."""
        place = self.any_line()
        line = self.lines[place]
        at = self.draw.randint(0, len(line))
        return self.replaced(place, line[:at] + edit(line[at:]))

    # Lines.

    def lost_line(self):
        place = self.any_line()
        return self.text(place, place + 1, [])

    def doubled_line(self):
        place = self.any_line()
        return self.text(place, place, [self.lines[place]])

    def moved_line(self):
        place, to = self.any_line(), self.any_line()
        line = self.lines.pop(place)
        text = self.text(to, to, [line])
        self.lines.insert(place, line)
        return text

    def exchanged_lines(self):
        one, other = sorted((self.any_line(), self.any_line()))
        if one == other:
            return self.doubled_line()
        return self.text(one, other + 1, [self.lines[other], *self.lines[one + 1 : other], self.lines[one]])

    def exchanged_neighbours(self):
        place = min(self.any_line(), len(self.lines) - 2)
        return self.text(place, place + 2, self.lines[place : place + 2][::-1])

    def empty_line(self):
        place = self.draw.choice((self.any_line(), len(self.lines)))
        return self.text(place, place, [""])

    def line_of_elsewhere(self):
        return self.replaced(self.any_line(), self.lines[self.any_line()])

    # The end.

    def lost_end(self):
        return self.dump[:-1]

    def cut(self):
        return self.dump[: self.draw.randrange(len(self.dump))]

    def cut_behind_a_line(self):
        place = self.any_line()
        return self.text(place, len(self.lines), [])

    def added_lines(self):
        blocks = sum(line.startswith("#") for line in self.lines)
        lines = [[f"#{blocks}"], [f"#{blocks}", f"#{blocks + 1}"], [f"#{blocks + 1}"], [f"#{blocks - 1}"], ["$end"], ["$dumpoff"], self.lines]
        return self.text(len(self.lines), len(self.lines), self.draw.choice(lines))

    # Bytes.

    def carriage_return(self):
        place = self.any_line()
        return self.replaced(place, self.lines[place] + "\r")

    def carriage_returns(self):
        return self.dump.replace("\n", self.draw.choice(("\r\n", "\r")))

    def tab(self):
        return self.edited("[^ ]*( )", lambda _: "\t")

    def space(self):
        return self.at_any_byte(lambda rest: " " + rest)

    def lost_space(self):
        return self.edited("[^ ]*( )", lambda _: "")

    def odd_byte(self):
        return self.at_any_byte(lambda rest: self.draw.choice(BYTES) + rest)

    def exchanged_byte(self):
        return self.at_any_byte(lambda rest: self.draw.choice(BYTES) + rest[1:])

    def lost_byte(self):
        return self.at_any_byte(lambda rest: rest[1:])

    # Numbers, names and identifiers.

    def other_number(self, number):
        near = str(int(number) + self.draw.choice((-1, 1, 2, 10))) if number.isdecimal() else number
        return self.draw.choice((*NUMBERS, near, near, near, f"0{number}"))

    def other_number_of_block(self):
        return self.edited("#(.*)", self.other_number)

    def other_width(self):
        return self.edited(r"\$var reg (\d+)", self.other_number)

    def other_name(self):
        return self.edited(r"\$var reg \d+ [^ ]+ ([^ ]+)", lambda _: self.draw.choice(NAMES))

    def zero_digit(self):
        return self.edited(r"(?:b[01]+|\$var reg \d+) ([^ ]+)", lambda digits: self.draw.choice(("!", "!!")) + digits)

    def other_identifier(self):
        others = ("", "!", '"', "#", "~", "\x7f", "\x80", " ", '"!', "~~", '"!!', "~~~~~~~~~~~~")
        return self.edited(r"(?:b[01]+|\$var reg \d+) ([^ ]+)", lambda digits: self.draw.choice((*others, digits + "!", digits[:-1] + chr(ord(digits[-1]) + 1))))

    # Changes.

    def other_bit(self):
        return self.edited("b([01]+) ", self.with_other_bit)

    def with_other_bit(self, bits):
        at = self.draw.randrange(len(bits))
        return bits[:at] + self.draw.choice(("10"[int(bits[at : at + 1] or 0)] if bits[at : at + 1] in ("0", "1") else "1", "2", "x", "z", "-")) + bits[at + 1 :]

    def bit_more(self):
        return self.edited("b([01]+) ", lambda bits: self.draw.choice(("0", "1")) + bits)

    def bit_less(self):
        return self.edited("b([01]+) ", lambda bits: bits[1:])

    def same_change(self):
        """A change of block 0 stands in another block too, where it may be one, or no change, or out of place."""
        place = self.any_line("b")
        to = self.any_line("b")
        return self.text(to, to, [self.lines[place]])


def damaged(draw, dump, count):
    """So many damaged texts of a dump."""
    damages = Damages(draw, dump)
    return [edit() for edit in draw.sample(damages.all(), count)]
