"""The program's faults as a compiler writes them: a file, a line, a column, the code, what it means and what to do."""
import os
import re
import tomllib
from dataclasses import dataclass

from .designs import is_system, parts_of_system
from .hints import hint
from .places import FIRST, Document, place
from .program import Stop, called, read, read_bytes, read_design, told


@dataclass(frozen=True)
class Fault:
    path: str
    place: tuple
    kind: str
    text: str

    def __str__(self):
        return f"{self.path}:{self.place[0]}:{self.place[1]}: {self.kind}: {self.text}"


def fault_of(lattice, path):
    """The fault of a lattice, or of a design or system over it; nothing if there is none. Without a path the lattice alone is looked at."""
    words = ["link", lattice, path, os.devnull] if path and is_system(path) else ["report", lattice, path or os.devnull]
    ran = called(*words)
    line = ran.stderr.strip()
    if ran.returncode == 0 or (path is None and line.startswith("design: ")):
        return None
    return explained(lattice, path, line)


def explained(lattice, path, line):
    """The fault that a line of the program tells."""
    subject, _, rest = line.partition(": ")
    code, *behind = rest.split(" ")
    if subject == "design":
        return of_design(path, code, behind)
    if subject.startswith("part "):
        return of_design(dict(parts_of_system(path))[subject.removeprefix("part ")], code, behind)
    if subject in ("lattice", "system"):
        file = lattice if subject == "lattice" else path
        places = lattice_place if subject == "lattice" else system_place
        return Fault(file, places(file, code, behind), "error", meaning(code, behind))
    if subject == "desk":
        return of_reading(lattice, path, rest)
    raise Stop(line)


def of_reading(lattice, path, file):
    """A file that can't be read. A part's is placed where the system file names it: nobody can look into the file itself."""
    parts = [part for _, part in parts_of_system(path)] if path and is_system(path) and file not in (lattice, path) else []
    if file not in parts:
        return Fault(file, FIRST, "error", "the file can't be read")
    return Fault(path, Document(read(path)).item("parts", parts.index(file) + 1, 2), "error", f"the file {file} of this part can't be read")


def of_design(path, code, behind):
    """The place of E1 to E18 stands in the line; that of a limit has its name behind it."""
    line, column = map(int, behind[0].split(":"))
    text = meaning(code, behind[1:])
    met = hint(code, read_design(path), (line, column)) if code != "E18" else None
    return Fault(path, (line, column), "error", f"{text} {met}" if met else text)


def meaning(code, names=()):
    """A code, its title, what the program names behind it, and the first sentence of the cure."""
    title, cure = title_and_cure(code)
    named = f" ({' '.join(names)})" if names else ""
    return f"{code}: {title}{named}. {cure}"


def title_and_cure(code):
    """What `--explain` says first of a code and of its cure, as far as it isn't about the example there. A point within code ends no sentence."""
    text = told("--explain", code)
    title = text.split("\n")[0].partition(": ")[2].rstrip(".")
    cure = " ".join(text.partition("\nCure: ")[2].split("\n\n")[0].split())
    first = re.match(r"(?:`[^`]*`|[^`.]|\.(?!\s|$))*\.?", cure)[0]
    return title, first.partition(": here ")[0].rstrip(".:") + "."


def toml_place(path):
    """Where Python's reader finds a document at fault, which may be its end; the start if it finds nothing."""
    data = read_bytes(path)
    try:
        tomllib.loads(data.decode())
    except UnicodeDecodeError as fault:
        return place(data.decode("latin-1"), fault.start)
    except tomllib.TOMLDecodeError as fault:
        found = re.search(r"at line (\d+), column (\d+)", str(fault))
        return (int(found[1]), int(found[2])) if found else place(data.decode("latin-1"), len(data))
    return FIRST


def shape_place(document, keys):
    """The first key that the document may not have; else its first line."""
    return next((place for key, place in document.keys.items() if key not in keys), FIRST)


def lattice_place(path, code, behind):
    if code == "L1":
        return toml_place(path)
    document = Document(read(path))
    if code == "L2":
        return shape_place(document, ("levels", "below"))
    if code in ("L4", "L5"):
        return document.item("levels" if code == "L4" else "below", int(behind[0]))
    if code in ("L6", "L7"):
        return document.string("levels", behind[0])
    return document.key("levels")


def system_place(path, code, behind):
    if code == "K1":
        return toml_place(path)
    document = Document(read(path))
    if code == "K2":
        return shape_place(document, ("parts", "wires"))
    if code == "K3":
        return document.key("parts")
    if code == "K4":
        return document.item("parts", int(behind[0]), 1)
    string = {"K5": 1, "K8": 1, "K9": 3}.get(code, 2)
    return document.item("wires", int(behind[0]), string)
