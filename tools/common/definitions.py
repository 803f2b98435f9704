"""The definitions of the crates, and which others each of them names: of specs/ those that are written, of src/ the types that
stand for themselves in a specification."""
import bisect
import re

from common.rust import TYPE, Code
from common.sources import IMPORT, clauses_behind, matching, module_of, names_in
from common.terms import RESERVED, Reading, Unread, first_at, nested, words_of

MARKS = {"pattern", "unfoldable", "abbrev", "pub"}
# What every file has without an import.
PRELUDE = {"⊥", "absurd", "¬", "Unit", "tt", "Dec", "yes", "no", "Discrete", "IsProp", "IsSet", "Id", "J", "Path", "squash₁"}
# Generated for a type that holds rows of itself.
GENERATED = re.compile(r"(?:Row_of-|end_of-|more_of-)(.+)$|Held-(\w+)-.*$|(.+)'$")


class Definition:
    """A definition: where it stands, what is shown of it, and the names in it that stand for others."""

    def __init__(self, path, name, kind):
        self.path, self.name, self.kind = path, name, kind
        self.spans, self.references, self.constructors = [], [], []
        self.block = None

    def __repr__(self):
        return f"{self.path} {self.name}"


class Outer:
    """A definition of the standard library or of another crate of the kit."""

    def __init__(self, module, name):
        self.module, self.name = module, name

    def __eq__(self, other):
        return isinstance(other, Outer) and (self.module, self.name) == (other.module, other.name)

    def __hash__(self):
        return hash((self.module, self.name))


class Scope:
    """The names that a file's imports bring: definitions by name, and modules."""

    def __init__(self, text, start=0, end=None):
        self.names, self.modules = {}, {}
        for match in IMPORT.finditer(text, start, len(text) if end is None else end):
            _, module, listed, own = match.groups()
            if listed is None:
                self.modules[own or module.split(".")[-1]] = module
            else:
                self.names.update({here: (module, name) for name, here in names_in(listed)})


class Module:
    """A file of specs/."""

    def __init__(self, path, text):
        self.path, self.text, self.name = path, text, module_of(path)
        self.scope, self.own, self.constructors, self.order = Scope(text), {}, {}, []


class Definitions:
    """All definitions, by file and name."""

    def __init__(self, sources):
        self.sources, self.code = sources, Code(sources)
        self.lines = {path: [0] + [match.end() for match in re.finditer("\n", text)] for path, text in sources.items()}
        self.crates = self.code.crates
        self.modules, self.types, self.unresolved = {}, {}, []
        for path, text in sources.items():
            if path.endswith(".antt"):
                self.modules[re.sub(r"\.specs\.Lib$", ".specs", module_of(path))] = Module(path, text)
        for module in self.modules.values():
            self.split(module)

    def line(self, path, at):
        return bisect.bisect_right(self.lines[path], at)

    def miss(self, path, at, what):
        message = f"{path}:{self.line(path, at)}: {what}"
        if message not in self.unresolved:
            self.unresolved.append(message)

    # The parts of a file.

    def slices(self, module, words):
        """The words of a block in runs, each of which begins at the block's own column."""
        if not words:
            return
        def column(word):
            return word.start - module.text.rfind("\n", 0, word.start) - 1
        indent, run, depth = column(words[0]), [], 0
        for word in words:
            first = not module.text[module.text.rfind("\n", 0, word.start) + 1:word.start].strip()
            closes = word.kind == "sign" and word.text in ")}]"
            if first and depth == 0 and not closes and column(word) < indent:
                raise Unread("a line that stands further left than its block", word.start)
            if run and first and depth == 0 and not closes and column(word) == indent:
                yield run
                run = []
            run.append(word)
            depth += (word.kind == "sign") * ({"(": 1, "{": 1, "[": 1}.get(word.text, 0) - closes)
        yield run

    def split(self, module):
        text = IMPORT.sub(lambda it: re.sub(r"[^\n]", " ", it[0]), module.text)
        text = re.sub(r"^(?:pub )?mod .*$", lambda it: " " * len(it[0]), text, flags=re.M)
        try:
            self.block(module, words_of(text), None, None)
        except Unread as what:
            self.miss(module.path, what.args[1], what.args[0])

    def add(self, module, name, kind, run, block, section):
        made = Definition(module.path, name, kind)
        made.spans.append((run[0].start, run[-1].end))
        made.run, made.clauses, made.block, made.section, made.module = run, [], block, section, module
        if kind != "section":
            if name in module.own:
                raise Unread(f"{name} is defined twice", run[0].start)
            module.own[name] = made
        module.order.append(made)
        return made

    def block(self, module, words, block, section):
        last = None
        for run in self.slices(module, words):
            at = first_behind(run)
            head = run[at].text
            if head == "mutual":
                self.block(module, run[at + 1:], run[0].start, section)
            elif head == "module":
                where = first_at(run, "where")
                made = self.add(module, self.sources[module.path][run[0].start:run[where].start].strip(), "section", run[:where + 1], block, section)
                self.block(module, run[where + 1:], block, made)
            elif head in ("data", "record"):
                made = last = self.add(module, run[at + 1].text, head, run, block, section)
                self.add_constructors(module, made, run)
            elif head in ("infix", "infixl", "infixr"):
                continue
            elif head == "unfolding" and last:
                last.spans.append((run[0].start, run[-1].end))
            elif is_signature(run[at:]):
                last = self.add(module, head, "function", run, block, section)
            elif last and last.kind == "function" and head not in RESERVED:
                last.spans.append((run[0].start, run[-1].end))
                last.clauses.append(run)
            else:
                raise Unread(f"`{head}` begins no definition", run[0].start)

    def add_constructors(self, module, made, run):
        where = first_at(run, "where")
        made.members = list(self.slices(module, run[where + 1:]))
        for member in made.members if made.kind == "data" else []:
            colon = first_at(member, ":")
            for word in member[:colon]:
                made.constructors.append(word.text)
                module.constructors.setdefault(word.text, made)

    # What a name stands for.

    def module(self, name):
        """The module of this whole name, by what others hand on."""
        if name in self.modules:
            return self.modules[name]
        above, _, last = name.rpartition(".")
        parent = self.module(above) if ".specs." in above or above.endswith(".specs") else None
        if parent and last in parent.scope.modules:
            return self.module(parent.scope.modules[last])
        return None

    def in_module(self, name, item, seen=()):
        """The definition that an item of a module is, with the name of a constructor as its type's; None where there is none."""
        crate = name.split(".")[0]
        if crate not in self.crates:
            return Outer(name, item)
        if f"{crate}.specs.declared." in name:
            return self.declared(name, item)
        module = self.module(name)
        if module is None or (name, item) in seen:
            return None
        if item in module.own:
            return module.own[item]
        if item in module.constructors:
            return module.constructors[item]
        if item in module.scope.names:
            home, there = module.scope.names[item]
            return self.in_module(home, there, (*seen, (name, item)))
        return None

    def declared(self, name, item):
        """The type of src/ from which a definition is generated."""
        crate, _, _, *inside = name.split(".")
        if inside[-1] == "TheConstants":
            constant = self.code.at(crate, inside[:-1], item)
            return self.type_of(constant) if constant else None
        inside = inside[:-1] if inside[-1] == "TheVariants" else inside
        found = self.code.at(crate, inside[:-1], inside[-1])
        if found is None:
            return None
        generated = GENERATED.match(item)
        base = next(filter(None, generated.groups())) if generated else item
        held = self.code.texts[found.path][found.start:found.end]
        if not generated and base != found.name and not re.search(rf"\b{re.escape(base)}\b", held):
            return None
        return self.type_of(found)

    def type_of(self, item, is_view=False):
        """The definition that a type of src/ is; or, as a field of another, what it is seen as."""
        model = self.code.models.get((item.crate, item.name)) if is_view else None
        key = (item.path, item.name, bool(model))
        if key not in self.types:
            made = self.types[key] = Definition(item.path, item.name, "view" if model else item.kind)
            self.read_view(made, model) if model else self.read_item(made, item)
        return self.types[key]

    def read_item(self, made, item):
        made.spans.append((item.start, item.end))
        text, own = self.code.texts[item.path], self.code.parameters(item) | {item.name}
        for ghost in re.finditer(r"\bghost \w+: \{", text[item.start:item.end]):
            start = item.start + ghost.end()
            fields = set(re.findall(r"(\w+):", text[item.start:item.end]))
            self.read_text(made, item.path, start, matching(text, start - 1) - 1, Scope(self.sources[item.path]), own | fields)
        text = re.sub(r"\bghost \w+: \{[^}]*\}", lambda it: " " * len(it[0]), text)
        for start, end in self.code.held(item):
            for match in TYPE.finditer(text, start, end):
                if re.search(r"[\w#]\[?$|'$", text[max(start, match.start() - 1):match.start()]):
                    continue
                self.refer_to_type(made, item.path, match, own)

    def refer_to_type(self, made, path, match, own):
        whole = match[0].split("::")
        if whole[-1] in own and len(whole) == 1:
            return
        found = self.code.along(path, whole)
        if found is None:
            if not self.code.is_outer(path, whole):
                self.miss(path, match.start(), f"no type {match[0]} is found")
        elif found.name != made.name or found.path != made.path:
            made.references.append((match.start(), match.end(), self.type_of(found, True)))

    def read_view(self, made, model):
        path, start, end, own = model
        text = self.sources[path]
        value = re.compile(r"ghost Value = \{(.*?)\};", re.DOTALL).search(text, start, end)
        if value is None:
            return self.miss(path, start, "an `impl Model` without a `Value`")
        made.path = path
        made.spans.append((start, text.index("\n", start)))
        made.spans.append(value.span())
        self.read_text(made, path, value.start(1), value.end(1), Scope(text), own)

    def reading(self, made, path, scope, module=None, bounds=()):
        """A reading of terms that notes in a definition what its names stand for."""
        parts = {}
        for name in list(scope.names) + (list(module.own) + list(module.constructors) if module else []):
            for part in filter(None, name.split("◌")) if "◌" in name else ():
                parts.setdefault(part, []).append(name)
        def bare(name):
            if module and name in module.own:
                return [module.own[name]]
            if module and name in module.constructors:
                return [module.constructors[name]]
            if name in scope.names:
                home, there = scope.names[name]
                return [self.in_module(home, there)]
            if "◌" in name and name not in parts:
                return [found for part in filter(None, name.split("◌")) for found in bare(part)]
            return [found for operator in parts.get(name, ()) for found in bare(operator)] or ([Outer("Prim", name)] if name in PRELUDE else [None])
        def dotted(path_words):
            texts = [word.text for word in path_words]
            head, *rest = texts
            if head == "Rattle":
                return self.whole(texts[1:])
            if head in bounds and rest[0] in bounds[head][1]:
                return [self.ghost(bounds[head][0], rest[0])]
            found = bare(head)
            if isinstance(found[0], Definition) and rest[0] in found[0].constructors:
                return found
            if head in scope.modules:
                home = scope.modules[head]
                for depth in range(len(rest)):
                    inner = self.in_module(".".join([home, *rest[:depth]]), rest[depth])
                    if inner:
                        return [inner]
            return found
        def found(words, is_bound):
            if is_bound:
                home = scope.modules.get(words[0].text)
                if home and len(words) > 1 and self.in_module(home, words[1].text):
                    self.miss(path, words[0].start, f"{made.name} binds {words[0].text}, which is a module's name too")
                return
            hits = dotted(words) if len(words) > 1 else bare(words[0].text)
            end = words[-1].end if len(words) > 1 and words[0].text in scope.modules else words[0].end
            for hit in hits:
                if hit is None:
                    shown = ".".join(word.text for word in words)
                    self.miss(path, words[0].start, f"{made.name} names {shown}, which is found nowhere")
                elif hit is not made:
                    made.references.append((words[0].start, end, hit))
        def is_constructor(name):
            if module and name in module.own:
                return False
            if module and name in module.constructors:
                return True
            home, there = scope.names.get(name, ("Prim", name))
            if name not in scope.names and name not in PRELUDE:
                return False
            if home.split(".")[0] not in self.crates:
                return True
            hit = self.in_module(home, there)
            if hit is None:
                self.miss(path, 0, f"{home} has no {there}")
            return isinstance(hit, Definition) and (hit.name != there) and hit.kind in ("data", "enum", "struct")
        return Reading(found, is_constructor, lambda name: name in parts)

    def whole(self, names):
        """What a name with its whole path stands for."""
        for size in range(len(names) - 1, 1, -1):
            hit = self.in_module(".".join(names[:size]), names[size])
            if hit:
                return [hit]
        return [None]

    def ghost(self, trait, member):
        """A ghost member of a trait, as `told` of `Desk`."""
        key = (trait.path, f"{trait.name}.{member}", False)
        if key not in self.types:
            made = self.types[key] = Definition(trait.path, f"{trait.name}.{member}", "ghost")
            text = self.sources[trait.path]
            place = re.compile(rf"^[ \t]*(ghost {member}: \{{(.*?)\}};)", re.M | re.DOTALL).search(text, trait.start, trait.end)
            made.spans.append(place.span(1))
            self.read_text(made, trait.path, *place.span(2), Scope(text), {"Self"})
        return self.types[key]

    def read_text(self, made, path, start, end, scope, own, bounds=()):
        """Notes in a definition what the names of a term stand for that a file of code holds."""
        try:
            words = nested(words_of(self.sources[path], start, end))
            self.reading(made, path, scope, None, bounds).term(words, frozenset(own))
        except Unread as what:
            self.miss(path, what.args[1], what.args[0])

    # What a definition rests on.

    def read(self, made):
        """Reads a definition of specs/, once."""
        if made.kind not in ("data", "record", "function", "section") or hasattr(made, "is_read"):
            return
        made.is_read = True
        module = made.module
        reading = self.reading(made, made.path, module.scope, module)
        own, section = frozenset(), made.section
        while section:
            made.references.append((made.run[0].start, made.run[0].start, section))
            own, section = own | section_names(section), section.section
        try:
            self.read_parts(made, reading, own)
        except Unread as what:
            self.miss(made.path, what.args[1], what.args[0])

    def read_parts(self, made, reading, own):
        run = made.run
        if made.kind == "section":
            reading.telescope(nested(run[2:-1]), own)
        elif made.kind == "function":
            at = first_behind(run)
            colon = first_at(run, ":")
            levels = level_names(run[at + 1:colon])
            reading.term(nested(run[colon + 1:]), own | levels)
            for clause in made.clauses:
                self.read_clause(made, reading, nested(clause), own | levels)
        else:
            at = first_behind(run)
            header = nested(run[at + 2:first_at(run, "where")])
            colon = first_at(header, ":")
            own = reading.telescope(header[:colon], own)
            reading.term(header[colon + 1:], own)
            for member in made.members:
                colon = first_at(member, ":")
                reading.term(nested(member[colon + 1:]), own)
                if made.kind == "record":
                    own = own | {word.text for word in member[:colon]}

    def read_clause(self, made, reading, words, own):
        if words[0].is_word("unfolding"):
            return
        where, equal = first_at(words, "where"), first_at(words, "=")
        if equal == len(words):
            raise Unread("a clause without `=`", words[0].start)
        left = words[1:equal] if words[0].is_word(made.name) else words[:equal]
        if left and not words[0].is_word(made.name) and "◌" not in made.name:
            raise Unread(f"a clause of {made.name} that begins with another name", words[0].start)
        own = own | reading.pattern(left)
        helpers = {run[0].text for run in self.slices(made.module, words[where + 1:])}
        reading.term(words[equal + 1:where], own | helpers)
        for run in self.slices(made.module, words[where + 1:]):
            colon = first_at(run, ":")
            if colon == 1:
                reading.term(run[2:], own)
            else:
                equal = first_at(run, "=")
                reading.term(run[equal + 1:], own | helpers | reading.pattern(run[1:equal]))

    def call(self, path, name, wanted):
        """The clauses of a public call as a definition: those of these names, or all."""
        text = self.code.texts[path]
        place = re.search(rf"^pub fn {name}\b", text, re.M)
        if place is None:
            raise Unread(f"{path} has no public call {name}", 0)
        made = Definition(path, name, "call")
        scope = Scope(self.sources[path])
        types = self.code.items[path].keys() | self.code.uses[path].keys()
        opened = text.index("(", place.end())
        closed = opened + 1
        while text[opened:closed].count("(") != text[opened:closed].count(")"):
            closed += 1
        own = set(re.findall(r"(\w+)\s*:", text[opened:closed])) | {"result", "self"}
        bounds = {}
        for parameter, bound in re.findall(r"(\w+): (\w+)", text[place.end():opened]):
            own.add(parameter)
            trait = self.code.along(path, [bound])
            if trait:
                bounds[parameter] = (trait, set(re.findall(r"^\s*ghost (\w+):", self.sources[trait.path][trait.start:trait.end], re.M)))
        clauses = clauses_behind(text, closed)
        missing = set(wanted) - {label for _, label, _, _ in clauses}
        if missing:
            raise Unread(f"{name} has no clause {', '.join(sorted(missing))}", place.start())
        for kind, label, start, end in clauses:
            if not wanted or label in wanted or kind == "requires":
                made.spans.append((start, end))
                self.read_text(made, path, start, end, scope, own - set(bounds), bounds)
        signature = text[opened:text.index("ensures", closed)] if clauses else text[opened:closed]
        for match in TYPE.finditer(text, opened, opened + len(signature)):
            self.refer_to_type(made, path, match, set(bounds) | (types - set(self.code.uses[path]) - set(self.code.items[path])))
        return made


def first_behind(run):
    """The place of the first word that is no mark."""
    return next(place for place, word in enumerate(run) if word.text not in MARKS)


def level_names(run):
    return frozenset(word.text for word in run if word.kind == "word")


def is_signature(run):
    """Whether words begin with a name, perhaps its levels, and a colon."""
    if len(run) > 1 and run[0].kind == "word" and run[1].is_sign("{"):
        closed = first_at(run, "}")
        return closed + 1 < len(run) and run[closed + 1].is_word(":") and all(word.kind == "word" or word.text == "," for word in run[2:closed])
    return len(run) > 1 and run[0].kind == "word" and run[1].is_word(":")


def section_names(section):
    """The names that a section's parameters bring."""
    found = set()
    for word in nested(section.run):
        if word.kind == "group":
            found |= {it.text for it in word.inner[:first_at(word.inner, ":")]}
    return frozenset(found)
