"""The words of a specification's text, and which of the names in a term are its own and which stand for something else."""
import re

TOKEN = re.compile(r'(?P<skip>\s+|--[^\n]*)|(?P<text>"(?:\\.|[^"\\])*")|(?P<sign>[(){}.;,@])|(?P<word>[^\s(){}.;,@"«»]+)')
CLOSERS = {"(": ")", "{": "}", "[": "]"}
RESERVED = set("data record deriving module where use mod pub package open as unfoldable abbrev axiom unfold unfolding ruleset mutual "
               "infix infixl infixr elim let in do λ ∀ Type 𝕀 𝔽 coe fcoe tcoe hcom com ∨ ∧".split())
PLAIN = {"→", "×", "=", ":", "Type", "_", "|", "↦"}
# What binds less than `×`.
LOOSER = {"→", "⊎", "↔", "≃", "∨₁"}
UNREAD = {"deriving", "do", "←", "where", "open", "axiom", "ruleset", "coe", "hcom", "com", "𝕀"}


class Unread(Exception):
    """What this reading of a text doesn't know."""


class Word:
    """A word, a sign, or what stands in brackets."""

    def __init__(self, kind, text, start, end, inner=()):
        self.kind, self.text, self.start, self.end, self.inner = kind, text, start, end, list(inner)

    def is_word(self, text):
        return self.kind == "word" and self.text == text

    def is_sign(self, text):
        return self.kind == "sign" and self.text == text

    def is_group(self, opener):
        return self.kind == "group" and self.text == opener


def words_of(text, start=0, end=None):
    """The words and signs of a text."""
    found, at, end = [], start, len(text) if end is None else end
    while at < end:
        match = TOKEN.match(text, at, end)
        if not match:
            raise Unread(f"a sign that no name has: {text[at]}", at)
        if match.lastgroup != "skip":
            kind = "sign" if match[0] in ("[", "]") else match.lastgroup
            found.append(Word(kind, match[0], match.start(), match.end()))
        at = match.end()
    return found


def nested(words):
    """The words with what stands in brackets as one."""
    stack = [[]]
    openers = []
    for word in words:
        if word.kind == "sign" and word.text in CLOSERS:
            openers.append(word)
            stack.append([])
        elif word.kind == "sign" and word.text in CLOSERS.values():
            if not openers or CLOSERS[openers[-1].text] != word.text:
                raise Unread("brackets that don't match", word.start)
            opener, inner = openers.pop(), stack.pop()
            stack[-1].append(Word("group", opener.text, opener.start, word.end, inner))
        else:
            stack[-1].append(word)
    if openers:
        raise Unread("a bracket that isn't closed", openers[-1].start)
    return stack[0]


def first_at(words, *texts):
    """The place of the first of the words that is one of these, or the number of words."""
    return next((place for place, word in enumerate(words) if word.kind in ("word", "sign") and word.text in texts), len(words))


def parted(words, sign):
    """The words in runs between signs."""
    run = []
    for word in words:
        if word.is_sign(sign) or word.is_word(sign):
            yield run
            run = []
        else:
            run.append(word)
    yield run


def path_at(words, at):
    """The words of a dotted name that begins here, and the place behind it."""
    path = [words[at]]
    while at + 2 < len(words) and words[at + 1].is_sign(".") and words[at + 1].start == words[at].end and words[at + 2].kind == "word" and words[at + 2].start == words[at + 1].end:
        at += 2
        path.append(words[at])
    return path, at + 1


def is_number(text):
    return text[0].isdigit()


class Reading:
    """Reads terms and patterns. `found(path, is_bound)` is told each name, and whether a binder of the term brings it;
    `is_constructor(name)` says whether a bare name in a pattern stands for a constructor, and `is_part(name)`, whether it is a part of
    an operator."""

    def __init__(self, found, is_constructor, is_part):
        self.found, self.is_constructor, self.is_part = found, is_constructor, is_part

    def named(self, path, own):
        head = path[0].text
        if not (head in PLAIN or is_number(head)):
            self.found(path, head in own)

    def pattern(self, words):
        """The names that a pattern binds."""
        bound, at = set(), 0
        while at < len(words):
            word = words[at]
            if word.is_word("record"):
                at += 1
                for part in filter(None, parted(words[at].inner, ";")):
                    bound |= self.pattern(part[2:])
                at += 1
                continue
            if word.kind == "group":
                inner = word.inner
                if word.text == "{" and len(inner) == 1:
                    bound.add(inner[0].text)
                elif word.text == "{" and len(inner) > 1 and inner[1].is_word("="):
                    bound |= self.pattern(inner[2:])
                elif word.text == "(" and 0 < first_at(inner, ":") < len(inner):
                    bound |= {it.text for it in inner[:first_at(inner, ":")]}
                else:
                    bound |= self.pattern(inner)
            elif word.kind == "word":
                path, behind = path_at(words, at)
                if len(path) > 1 or self.is_constructor(word.text) or self.is_part(word.text):
                    self.named(path, ())
                elif word.text not in PLAIN and not is_number(word.text):
                    bound.add(word.text)
                at = behind
                continue
            at += 1
        return bound

    def binders(self, words, own):
        """The names that the binders of a λ bring; the types that they have are read."""
        bound = set()
        at = 0
        while at < len(words):
            word = words[at]
            if word.kind == "word" and not word.is_word("record"):
                bound.add(word.text)
                at += 1
            elif word.kind == "group" and 0 < first_at(word.inner, ":") < len(word.inner):
                colon = first_at(word.inner, ":")
                self.term(word.inner[colon + 1:], own | bound)
                bound |= {it.text for it in word.inner[:colon]}
                at += 1
            else:
                size = 2 if word.is_word("record") else 1
                bound |= self.pattern(words[at:at + size])
                at += size
        return bound

    def end_of_let(self, words, at):
        """The place of the `in` that belongs to what begins before `at`."""
        depth = 1
        while at < len(words):
            depth += 1 if words[at].is_word("let") or words[at].is_word("unfold") else -1 if words[at].is_word("in") else 0
            if depth == 0:
                return at
            at += 1
        raise Unread("a `let` without `in`", words[-1].start)

    def telescope(self, words, own):
        """Reads binders in brackets, as those of a record, and gives all names that then stand."""
        for word in words:
            colon = first_at(word.inner, ":") if word.kind == "group" else 0
            if word.kind == "group" and 0 < colon < len(word.inner):
                self.term(word.inner[colon + 1:], own)
                own = own | {it.text for it in word.inner[:colon]}
            elif not (word.kind == "group" and word.text == "{"):
                raise Unread("a binder that isn't in brackets", word.start)
        return own

    def term(self, words, own):
        """Reads a term in which the names of `own` are bound. A binder before `×` reaches up to the next sign that binds less."""
        base, before_product, at = own, None, 0
        while at < len(words):
            word = words[at]
            if word.kind == "group":
                bound = self.group(word, own)
                at += 1
                if bound != own and first_at(words[at:at + 1], "→", "×") == 0:
                    before_product = own if words[at].is_word("×") and before_product is None else before_product
                    at += 1
                own = bound
                while at + 1 < len(words) and words[at].is_sign(".") and words[at].start == words[at - 1].end:
                    at += 2
            elif word.kind == "text":
                at += 1
            elif word.is_sign(",") or word.is_sign(";") or word.is_word("|"):
                own, before_product = base, None
                at += 1
            elif before_product is not None and word.kind == "word" and word.text in LOOSER:
                own, before_product = before_product, None
                at += 1
            elif word.is_word("λ"):
                dot = first_at(words[at:], ".") + at
                own, before_product = own | self.binders(words[at + 1:dot], own), None
                at = dot + 1
            elif word.is_word("let"):
                end = self.end_of_let(words, at + 1)
                middle = words[at + 1:end]
                equal = first_at(middle, "=")
                colon = first_at(middle[:equal], ":")
                self.term(middle[colon + 1:equal], own)
                self.term(middle[equal + 1:], own)
                own, before_product = own | self.binders(middle[:colon], own), None
                at = end + 1
            elif word.is_word("record"):
                at = self.record(words, at + 1, own)
            elif word.is_word("elim") or word.is_word("as") or word.is_word("unfold") or word.is_word("in") or word.is_word("∀"):
                at += 1
            elif word.kind == "sign" or word.text in UNREAD:
                raise Unread(f"`{word.text}` is read nowhere here", word.start)
            else:
                path, at = path_at(words, at)
                self.named(path, own)
        return own

    def group(self, word, own):
        """Reads what stands in brackets, and gives the names that are bound behind it."""
        inner, colon = word.inner, first_at(word.inner, ":")
        if word.text != "[" and 0 < colon < len(inner) and all(it.kind == "word" and it.text not in RESERVED for it in inner[:colon]):
            self.term(inner[colon + 1:], own)
            return own | {it.text for it in inner[:colon]}
        if word.text == "[" and first_at(inner, "↦") < len(inner):
            for case in parted(inner, "|"):
                arrow = first_at(case, "↦")
                self.term(case[arrow + 1:], own | self.pattern(case[:arrow]))
        elif word.text == "{" and len(inner) > 1 and inner[1].is_word("="):
            self.term(inner[2:], own)
        else:
            self.term(inner, own)
        return own

    def record(self, words, at, own):
        """Reads a record's value or type, which begins behind its word, and gives the place behind it."""
        while at < len(words) and not words[at].is_group("{"):
            if words[at].kind == "group":
                self.group(words[at], own)
                at += 1
            elif words[at].is_sign("."):
                at += 2
            else:
                path, at = path_at(words, at)
                self.named(path, own)
        for part in filter(None, parted(words[at].inner, ";")):
            middle = first_at(part, "=", ":")
            if middle == len(part):
                raise Unread("a field without a value", part[0].start)
            self.term(part[middle + 1:], own)
            if part[middle].is_word(":"):
                own = own | {it.text for it in part[:middle]}
        return at + 1
