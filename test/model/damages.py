"""Damages of a written module, each in one place that a draw chooses. Each answers the damaged text, or None where it finds nothing to damage."""

import re

EXCHANGED = (("+", "-", "*", "&", "|", "^"), ("==", "!=", "<", "<="), ("<<", ">>"))
OPERAND = r"(?:\d+'d\d+|\w+)"


def one_of(draw, pattern, text, test=lambda found: True):
    """Any place of a pattern that passes a test, if there is one."""
    found = [one for one in re.finditer(pattern, text, re.MULTILINE) if test(one)]
    return draw.choice(found) if found else None


def put_in(text, found, group, new):
    return text[: found.start(group)] + new + text[found.end(group) :]


def width_of(text, name):
    """The width with which a name is declared."""
    return int(re.search(rf"\[(\d+):0\] {name}\b", text)[1]) + 1


def of_width(text, width):
    """The inputs, registers and wires of a width, and a few numbers."""
    names = re.findall(rf"(?:wire|reg|input) \[{width - 1}:0\] (\w+)(?=[,;\n])", text)
    return [*names, *(f"{width}'d{number}" for number in {0, 2**width - 1})]


def operator(draw, text):
    """Another operator of the same widths."""
    found = one_of(draw, rf"^assign \w+ = {OPERAND} (\+|-|\*|&|\||\^|==|!=|<=|<|<<|>>) {OPERAND};", text)
    if found is None:
        return None
    row = next(row for row in EXCHANGED if found[1] in row)
    return put_in(text, found, 1, draw.choice([sign for sign in row if sign != found[1]]))


def arms(draw, text):
    """The arms of a choice exchanged."""
    found = one_of(draw, rf"^assign \w+ = {OPERAND} \? ({OPERAND}) : ({OPERAND});", text, lambda found: found[1] != found[2])
    return found and text[: found.start(1)] + f"{found[2]} : {found[1]}" + text[found.end(2) :]


def refusal(draw, text):
    """Another number on a wire of a check site."""
    found = one_of(draw, rf"^assign ([cl]_\d+) = ({OPERAND});", text)
    return found and other_operand(draw, text, found, declared_before=True)


def tag(draw, text):
    """Another right side of a tag."""
    found = one_of(draw, rf"^always @\(posedge clk\) (t_\w+) <= ({OPERAND});", text)
    return found and other_operand(draw, text, found, declared_before=False)


def other_operand(draw, text, found, declared_before):
    """Another operand of the same width. In front of an `assign` the helping wires after it aren't declared yet, so that only numbers and inputs will do."""
    operands = of_width(text, width_of(text, found[1]))
    if declared_before:
        operands = [one for one in operands if "'" in one or re.search(rf"input \[\d+:0\] {one}\b", text)]
    operands = [one for one in operands if one != found[2] and not re.match(r"[cl]_\d", one)]
    return put_in(text, found, 2, draw.choice(operands)) if operands else None


def start(draw, text):
    """Another number that a register starts with."""
    found = one_of(draw, r"^initial (\w+) = (\d+)'d(\d+);", text)
    if found is None:
        return None
    most = 2 ** int(found[2])
    return put_in(text, found, 3, str((int(found[3]) + draw.randrange(1, most)) % most))


DAMAGES = {"operator": operator, "arms of a choice": arms, "wire of a refusal": refusal, "right side of a tag": tag, "start of a register": start}
