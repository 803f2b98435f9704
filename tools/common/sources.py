"""What the scripts of tools/ share: the sources of the crates, their words, and the clauses of calls."""
import os
import re

TOP = os.path.dirname(os.path.dirname(os.path.dirname(os.path.realpath(__file__))))
SOURCE = re.compile(r"crates/(\w+)/(src|specs)/(.+)\.(rt|antt)$")
BRACE = re.compile("[{}]")
CLAUSE = re.compile(r"\s*(requires|ensures)\b\s*([\w*]*(?:\s+\w+)?)\s*\{")
# An import of definitions: whether it hands them on, the module, the names in braces, and another name for the module.
IMPORT = re.compile(r"^[ \t]*(?:ghost )?(?:unfoldable )?(pub )?use Rattle\.([\w.]*\w)(?:\.\{([^}]*)\})?(?: as (\S+?))?;?[ \t]*$", re.M)


def read_sources():
    """The sources of the crates as they lie here, by path."""
    found = {}
    for folder, _, names in os.walk(os.path.join(TOP, "crates")):
        for name in sorted(names):
            path = os.path.relpath(os.path.join(folder, name), TOP)
            if SOURCE.match(path):
                with open(os.path.join(TOP, path), encoding="utf-8") as file:
                    found[path] = file.read()
    return found


def crates_in_order():
    """Each crate with the subject that crates.txt gives it, the lowest first."""
    crates, subject = {}, ""
    with open(os.path.join(TOP, "crates.txt"), encoding="utf-8") as lines:
        for line in lines:
            if line.startswith("# ") and "NAME:" not in line:
                subject = line[2:].strip()
            name, colon, _ = line.split("#")[0].partition(":")
            if colon:
                crates[name.split()[0]] = subject
    return crates


def module_of(path):
    """The whole name of a file's module, without the first word that all have: CRATE.src.FILE or CRATE.specs.FILE."""
    crate, folder, rest, _ = SOURCE.match(path).groups()
    return f"{crate}.{folder}.{rest.replace('/', '.')}"


def matching(text, at):
    """Just behind the brace that closes the one at `at`."""
    depth = 0
    for brace in BRACE.finditer(text, at):
        depth += 1 if brace[0] == "{" else -1
        if depth == 0:
            return brace.end()
    return len(text)


def plain(text):
    """The text without comments, and with one space where it has white space."""
    return re.sub(r"\s+", " ", re.sub(r"--[^\n]*|//[^\n]*", " ", text)).strip()


def without_comments(text):
    """The text of a file of code with each comment blanked, so that places stay."""
    return re.sub(r'"(?:\\.|[^"\\])*"|//[^\n]*', lambda it: it[0] if it[0].startswith('"') else " " * len(it[0]), text)


def clauses_behind(text, at):
    """The clauses of the function whose signature begins at `at`: the kind, the name, and where its term begins and ends."""
    depth, found = 0, []
    while at < len(text):
        clause = CLAUSE.match(text, at) if depth == 0 else None
        if clause:
            end = matching(text, clause.end() - 1)
            found.append((clause[1], clause[2].strip(), clause.end(), end - 1))
            at = end
            continue
        if depth == 0 and text[at] in "{;":
            break
        depth += {"(": 1, "[": 1, ")": -1, "]": -1}.get(text[at], 0)
        at += 1
    return found


def names_in(listed):
    """The names in the braces of an import, each with the name that it gets here."""
    for item in filter(None, (part.strip() for part in listed.split(","))):
        name, _, own = item.partition(" as ")
        yield name.strip(), (own or name).strip()
