"""Where strings stand in a TOML document of arrays, by what a fault of a lattice or a system names."""
import re

TOKEN = re.compile(r"""#[^\n]*|\"\"\".*?\"\"\"|'''.*?'''|"(?:[^"\\\n]|\\.)*"|'[^'\n]*'|[\[\]]|^[ \t]*"?\w+"?[ \t]*=""", re.DOTALL | re.MULTILINE)
FIRST = (1, 1)


def place(text, offset):
    return text.count("\n", 0, offset) + 1, offset - text.rfind("\n", 0, offset)


class Document:
    """The keys of a document, each with its place and the array behind it: a string is its place, an array a list with its place in front."""

    def __init__(self, text):
        self.text, self.keys, self.arrays, self.strings = text, {}, {}, {}
        open_arrays, key = [], None
        for token in TOKEN.finditer(text):
            word = token[0].strip()
            at = place(text, token.end() - len(token[0].lstrip()))
            if word.endswith("=") and not open_arrays:
                key = word.rstrip("= \t").strip('"')
                self.keys[key] = at
            elif word == "[" and key is not None:
                open_arrays.append([at])
            elif word == "]" and open_arrays:
                done = open_arrays.pop()
                if open_arrays:
                    open_arrays[-1].append(done)
                else:
                    self.arrays[key] = done
            elif word[0] in "\"'" and open_arrays:
                open_arrays[-1].append(at)
                self.strings.setdefault((key, word.strip("\"'")), at)

    def key(self, name):
        return self.keys.get(name, FIRST)

    def item(self, name, *numbers):
        """The place of an item of an array, or of an item of that; numbers count from 1."""
        found = self.arrays.get(name, [FIRST])
        for number in numbers:
            if not isinstance(found, list) or number >= len(found):
                return self.key(name)
            found = found[number]
        return found[0] if isinstance(found, list) else found

    def string(self, name, text):
        return self.strings.get((name, text), self.key(name))
