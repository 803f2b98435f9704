"""The types that the code of the crates declares, and what their fields name."""
import re

from common.sources import matching, without_comments

ITEM = re.compile(r"^[ \t]*(?:pub(?:\([\w ]+\))? )?(struct|enum|trait|type|const) (\w+)", re.M)
USE = re.compile(r"^[ \t]*(?:pub(?:\([\w ]+\))? )?use ([^;]*);", re.M)
TYPE = re.compile(r"(?:\b\w+::)*\b[A-Z]\w*")
# What needs no import in code.
GIVEN = {"Self", "Vec", "Box", "Option", "Result", "String", "Some", "None", "Ok", "Err", "Drop", "Copy", "Clone", "Fn", "FnMut", "FnOnce", "Eq", "Ord"}


class Item:
    """A type or a trait of the code: where it stands, and where what it holds begins."""

    def __init__(self, crate, path, name, kind, start, end):
        self.crate, self.path, self.name, self.kind, self.start, self.end = crate, path, name, kind, start, end


def expanded(tree):
    """The paths of an import, with its braces written out, each with the name that it gets."""
    found = re.match(r"(.*?)\{(.*)\}\s*$", tree, re.DOTALL)
    if not found:
        path, _, name = (part.strip() for part in tree.partition(" as "))
        return [(path, name or path.split("::")[-1])] if path else []
    paths, depth, piece = [], 0, ""
    for sign in found[2] + ",":
        depth += {"{": 1, "}": -1}.get(sign, 0)
        if sign == "," and depth == 0:
            paths += [(found[1].strip() + path, name) for path, name in expanded(piece.strip())]
            piece = ""
        else:
            piece += sign
    return paths


def pieces(text, start, end):
    """The pieces between commas that stand in no brackets: where each begins and ends."""
    depth, begin = 0, start
    for place in range(start, end):
        depth += {"(": 1, "[": 1, "{": 1, "<": 1, ")": -1, "]": -1, "}": -1, ">": -1}.get(text[place], 0)
        if text[place] == "," and depth == 0:
            yield begin, place
            begin = place + 1
    if text[begin:end].strip():
        yield begin, end


def parameters_in(listed):
    """The type parameters of a list in brackets, if there is one."""
    return set(re.findall(r"\b[A-Z]\w*", re.sub(r":[^,>]*", "", listed or "")))


class Code:
    """The code of all crates: its types by name, and what a name in a file stands for."""

    def __init__(self, sources):
        self.texts = {path: without_comments(text) for path, text in sources.items() if path.endswith(".rt")}
        self.items = {path: self.items_of(path) for path in self.texts}
        self.uses = {path: {name: whole for tree in USE.findall(text) for whole, name in expanded(tree.strip())} for path, text in self.texts.items()}
        self.crates = {path.split("/")[1] for path in self.texts}
        self.models = {}
        for path, text in self.texts.items():
            for found in re.finditer(r"^[ \t]*impl(<[^>]*>)? Model for (\w+)[^{]*\{", text, re.M):
                self.models[path.split("/")[1], found[2]] = (path, found.start(), matching(text, found.end() - 1), parameters_in(found[1]))

    def items_of(self, path):
        text, found = self.texts[path], {}
        for match in ITEM.finditer(text):
            opened = re.search(r"[{;]", text[match.end():])
            at = match.end() + opened.start()
            end = matching(text, at) if text[at] == "{" else at + 1
            found[match[2]] = Item(path.split("/")[1], path, match[2], match[1], match.start() + len(match[0]) - len(match[0].lstrip()), end)
        return found

    def file(self, crate, inside):
        """The file of a module of a crate, if there is one."""
        name = "/".join(inside)
        for path in (f"crates/{crate}/src/{name}.rt",) if inside else (f"crates/{crate}/src/lib.rt", f"crates/{crate}/src/main.rt"):
            if path in self.texts:
                return path
        return None

    def inside(self, path):
        rest = path.split("/src/")[1][:-3].split("/")
        return [] if rest in (["lib"], ["main"]) else rest

    def at(self, crate, inside, name, seen=()):
        """The item that a name is in a module, by whatever imports hand it on; None where it is none of these crates."""
        path = self.file(crate, inside)
        if path is None or (path, name) in seen:
            return None
        if name in self.items[path]:
            return self.items[path][name]
        return self.along(path, self.uses[path][name].split("::"), (*seen, (path, name))) if name in self.uses[path] else None

    def along(self, path, whole, seen=()):
        """The item at the end of a path that stands in a file."""
        crate, here = path.split("/")[1], self.inside(path)
        *way, name = whole
        while way and way[0] in ("crate", "self", "super"):
            here = [] if way[0] == "crate" else here if way[0] == "self" else here[:-1]
            first, way = way[0], way[1:]
            if not way or first == "crate":
                return self.at(crate, here + way, name, seen)
        if not way:
            return self.at(crate, here, name, seen)
        if way[0] in self.crates:
            return self.at(way[0], way[1:], name, seen)
        if way[0] in self.uses[path]:
            return self.along(path, self.uses[path][way[0]].split("::") + way[1:] + [name], seen)
        return self.at(crate, here + way, name, seen)

    def is_outer(self, path, whole):
        """Whether a path in a file leads out of these crates."""
        first = whole[0]
        if first in self.uses[path]:
            first = self.uses[path][first].split("::")[0]
        return first in GIVEN or (first not in self.crates and first not in ("crate", "self", "super") and (len(whole) > 1 or whole[0] in self.uses[path]))

    def held(self, item):
        """Where the types of an item's fields stand in its file: for an enum without the names of its variants."""
        text = self.texts[item.path]
        at = re.compile(rf"\b{item.name}\b[^{{(;=:]*").search(text, item.start).end()
        if item.kind != "enum":
            return [(at, item.end)]
        found = []
        for begin, end in pieces(text, at + 1, item.end - 1):
            variant = re.match(r"\s*(?:#\[[^\]]*\]\s*)*\w+", text[begin:end])
            found.append((begin + variant.end(), end) if variant else (begin, end))
        return found

    def parameters(self, item):
        """The type parameters of an item."""
        text = self.texts[item.path][item.start:item.end]
        return parameters_in(re.search(rf"\b{item.name}(<[^>]*>)?", text)[1])
