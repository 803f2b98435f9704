"""What a design was meant to say where it has a fault that is met often: words of other languages."""
import sys

from .program import TOP

sys.path.insert(1, f"{TOP}/test")
from model.tokens import KEYWORDS_OF_VERSION_2, Fault, tokens_of  # noqa: E402

FIRST_WORDS = ("input", "reg", "mem", "state", "goto")


def hint(code, text, place):
    """A sentence on what stands at the place; nothing where nothing is known of it."""
    try:
        tokens = tokens_of(text)
    except Fault:
        line = text.split("\n")[place[0] - 1] if code == "E1" else ""
        return of_byte(line[place[1] - 1 : place[1] + 1])
    at = next((at for at, token in enumerate(tokens) if token.place == place), None)
    if at is None:
        return None
    around = [token.text for token in tokens[max(0, at - 2) : at + 3]]
    around = [""] * (2 - min(at, 2)) + around + [""] * 3
    return {"E2": of_token, "E5": of_kind, "E7": of_number, "E8": of_number}.get(code, lambda *_: None)(around[:5], tokens, at)


def of_byte(bytes_there):
    signs = {
        "!": "`!a` is `~a` for one bit, and `a == 0` for more.",
        "%": "There is no remainder.",
        "/*": "A comment begins with `//` and ends with its line.",
        "/": "There is no division.",
        "'": "A width stands in front of `'`, as in `8'd5`.",
    }
    return signs.get(bytes_there, signs.get(bytes_there[:1]))


def of_token(around, tokens, at):
    """E2: of the token and of the two before it."""
    before, last, token, after, _ = around
    if last == "else" and token == "if":
        return "There is no `else if`: write `else { if (..) {..} }`."
    if last in ("input", "reg", "mem") and token == "[":
        return f"The width stands behind the name: `{last} x : 8`."
    if token in KEYWORDS_OF_VERSION_2 and last in FIRST_WORDS:
        return f"`{token}` is a keyword, and can't be a name."
    if token == "}" and tokens[at].sort == "sign" and in_case(tokens, at):
        return "A `case` ends with `else {..}`."
    if token == "=" and in_expression(tokens, at):
        return "`==` compares."
    if token in ("<=", "=") and (before in (";", "{", "}") or last == "]"):
        return "An assignment is `:=`."
    if token != "{" and (last == "else" or (last == ")" and word_before_bracket(tokens, at - 1) == "if")):
        return "Each block stands in `{` and `}`, also one of a single command."
    if token in ("then", "case") or (last in ("then", "case") and tokens[0].text != "sapper"):
        return "`then` and `case` need the first line `sapper 2;`."
    if last == ":=" and token in KEYWORDS_OF_VERSION_2:
        return f"`{token}` is a keyword, and can't be a name."
    return None


def in_expression(tokens, at):
    """Whether an expression of the command is open here: behind `:=`, or within a bracket."""
    closed = 0
    for token in reversed(tokens[:at]):
        if token.text in (";", "{", "}"):
            return False
        closed += {")": 1, "]": 1, "(": -1, "[": -1}.get(token.text, 0)
        if closed < 0 or token.text == ":=":
            return True
    return False


def word_before_bracket(tokens, at):
    """What stands before the parenthesis that is closed here."""
    closed = 0
    while at > 0:
        closed += {")": 1, "(": -1}.get(tokens[at].text, 0)
        if not closed:
            return tokens[at - 1].text
        at -= 1
    return None


def in_case(tokens, at):
    """Whether the bracket that closes here is that of a `case`."""
    open_brackets = 1
    for place in range(at - 1, -1, -1):
        if tokens[place].sort == "sign" and tokens[place].text in "{}":
            open_brackets += 1 if tokens[place].text == "}" else -1
        if open_brackets == 0:
            while place and tokens[place].text != "case" and tokens[place].text not in (";", "}"):
                place -= 1
            return tokens[place].text == "case"
    return False


def of_kind(around, tokens, at):
    """E5: of an index behind what is no memory."""
    _, last, token, after, index = around
    if after != "[" or last == "mem":
        return None
    if index.isdigit():
        return f"An index is for memories: bit {index} of `{token}` is `{token}[{index}:{index}]`."
    return f"An index is for memories: bit n of `{token}` is `({token} >> n)[0:0]`."


def of_number(around, tokens, at):
    """E8 and E7: of a doubled sign in the same command."""
    line = tokens[at].place[0]
    for one, other in zip(tokens, tokens[1:]):
        if is_doubled(one, other) and one.place[0] == line:
            return f"`{one.text}{one.text}` is two signs, of which the second reduces what is behind it to a bit: write one."
    return None


def is_doubled(one, other):
    """Whether two tokens are `&&` or `||`, with nothing between."""
    return one.sort == other.sort == "sign" and one.text == other.text in ("&", "|") and other.offset == one.offset + 1
