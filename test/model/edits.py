"""Edits of a well-formed design that break a rule, or mostly do: the model says of the edited text which one, and where."""

from .tokens import KEYWORDS_OF_VERSION_2, LARGEST_NUMBER, tokens_of
from .tree import Fall, Goto, Memory, Plain, Register, State, commands_in

UNDECLARED = "nowhere"


def is_plain_transfer(command):
    return isinstance(command, Plain) and isinstance(command.simple, (Goto, Fall))


class Edits:
    """The edits of one design. Each answers the edited text, or None where it finds nothing to edit."""

    def __init__(self, draw, design, text):
        self.draw = draw
        self.design = design
        self.text = text
        self.tokens = tokens_of(text)[:-1]
        self.at_place = {token.place: token for token in self.tokens}

    def all(self):
        return [
            self.odd_byte,
            self.large_number,
            self.lost_token,
            self.doubled_token,
            self.exchanged_tokens,
            self.unknown_name,
            self.unknown_level,
            self.other_name,
            self.other_declared_name,
            self.goto_elsewhere,
            self.other_number,
            self.exchanged_levels,
            self.lost_transfer,
            self.transfer_too_many,
            self.then_of_transfer,
            self.fall_for_goto,
            self.second_write,
            self.needless_handler,
            self.needless_set_tag,
        ]

    # How a text is edited.

    def replaced(self, token, new):
        return self.text[: token.offset] + new + self.text[token.offset + len(token.text) :]

    def inserted(self, offset, new):
        return self.text[:offset] + new + self.text[offset:]

    def any_token(self, *sorts):
        """Any token of these sorts, keywords left out, if there is one."""
        tokens = [token for token in self.tokens if token.sort in sorts and token.text not in KEYWORDS_OF_VERSION_2]
        return self.draw.choice(tokens) if tokens else None

    def any_command(self, test):
        """Any command that passes a test, if there is one."""
        found = [command for state in self.design.states() for command in commands_in(state.body) if test(command)]
        return self.draw.choice(found) if found else None

    def in_front_of_a_command(self, new):
        command = self.any_command(lambda command: True)
        return self.inserted(self.at_place[command.place].offset, new)

    def end_of(self, command):
        """The `;` of a simple command alone. No `;` stands within a command."""
        first = self.at_place[command.place]
        return next(token for token in self.tokens if token.offset > first.offset and token.text == ";")

    def any_of(self, sort):
        names = [entity.name for entity in self.design.of_sort(sort)]
        return self.draw.choice(names) if names else UNDECLARED

    # Tokens.

    def odd_byte(self):
        return self.inserted(self.draw.choice(self.tokens).offset, self.draw.choice("#$%@!.'\"\\/`\x00\x7f\xe9"))

    def large_number(self):
        token = self.any_token("number", "sized")
        return token and self.replaced(token, self.draw.choice((str(LARGEST_NUMBER), str(LARGEST_NUMBER + 1), token.text + "_")))

    def lost_token(self):
        return self.replaced(self.draw.choice(self.tokens), " ")

    def doubled_token(self):
        token = self.draw.choice(self.tokens)
        return self.replaced(token, f"{token.text} {token.text}")

    def exchanged_tokens(self):
        place = self.draw.randrange(len(self.tokens) - 1)
        one, other = self.tokens[place : place + 2]
        return self.text[: one.offset] + f" {other.text} {one.text} " + self.text[other.offset + len(other.text) :]

    # Names and numbers.

    def unknown_name(self):
        return self.replaced(self.any_token("name"), UNDECLARED)

    def unknown_level(self):
        levels = [level for word, level in zip(self.tokens, self.tokens[1:]) if word.text in ("enforced", "under")]
        return self.replaced(self.draw.choice(levels), UNDECLARED) if levels else None

    def other_name(self):
        return self.replaced(self.any_token("name"), self.draw.choice(list(self.design.entities)))

    def other_declared_name(self):
        """A name where it is declared gives way to another declared one, or to a new one."""
        declared = self.at_place[self.draw.choice(list(self.design.declared.values())).name.place]
        return self.replaced(declared, self.draw.choice([*self.design.entities, UNDECLARED]))

    def other_number(self):
        token = self.any_token("number", "sized")
        numbers = [str(number) for number in (0, 1, 2, 3, 7, 8, 63, 64, 65, 4096, 8192)] + ["0'd0", "1'd2", "2'd1", "8'd5", "65'h1"]
        return token and self.replaced(token, self.draw.choice(numbers))

    def exchanged_levels(self):
        """The level and the authority of a kind."""
        places = [place for place, token in enumerate(self.tokens) if token.text == "under"]
        if not places:
            return None
        place = self.draw.choice(places)
        level, authority = self.tokens[place - 1], self.tokens[place + 1]
        return self.text[: level.offset] + f"{authority.text} under {level.text}" + self.text[authority.offset + len(authority.text) :]

    # Commands.

    def lost_transfer(self):
        command = self.any_command(is_plain_transfer)
        if command is None:
            return None
        return self.text[: self.at_place[command.place].offset] + self.text[self.end_of(command).offset + 1 :]

    def transfer_too_many(self):
        return self.in_front_of_a_command(self.draw.choice((f"goto {self.any_of(State)}; ", "fall; ")))

    def then_of_transfer(self):
        """Of the transfer that stands there, or of one to any state or child."""
        command = self.any_command(is_plain_transfer)
        if command is None:
            return None
        start, end = self.at_place[command.place].offset, self.end_of(command).offset
        transfer = self.draw.choice((self.text[start:end], f"goto {self.any_of(State)}", "fall"))
        return self.text[:start] + f"{transfer} then {{ }} otherwise {{ }}" + self.text[end + 1 :]

    def goto_elsewhere(self):
        command = self.any_command(lambda command: isinstance(command.simple, Goto))
        return command and self.replaced(self.at_place[command.simple.target.place], self.any_of(State))

    def fall_for_goto(self):
        command = self.any_command(lambda command: isinstance(command.simple, Goto))
        if command is None:
            return None
        goto, target = self.at_place[command.place], self.at_place[command.simple.target.place]
        return self.text[: goto.offset] + "fall" + self.text[target.offset + len(target.text) :]

    def second_write(self):
        if not self.design.of_sort(Memory):
            return None
        return self.in_front_of_a_command(f"{self.any_of(Memory)}[0] := 0; " * self.draw.choice((1, 2)))

    def needless_handler(self):
        """Behind an assignment to something dynamic, or another command that stands alone."""
        command = self.any_command(lambda command: isinstance(command, Plain))
        return command and self.replaced(self.end_of(command), self.draw.choice((" otherwise { }", " then { } otherwise { }")))

    def needless_set_tag(self):
        """On a register, which may be dynamic, or on a state, which may be active."""
        level = self.draw.choice(self.design.lattice.names)
        return self.in_front_of_a_command(f"setTag({self.any_of(self.draw.choice((Register, State)))}, {level}); ")
