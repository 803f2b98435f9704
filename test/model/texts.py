"""What the commands write of a design: rows, traces and reports, by docs/COMMANDS.md."""

from .run import Run
from .streams import stream_of


def rows_and_trace(design, stimulus):
    """The rows and the trace of a design's run on a stimulus."""
    run = Run(design)
    rows, trace = [], []
    for cycle, inputs in enumerate(stream_of(stimulus, design), 1):
        refusals = run.cycle(inputs)
        rows.append(row(cycle, run))
        trace += [refusal_line(cycle, refusal, design) for refusal in refusals]
    return "".join(rows), "".join(trace)


def row(cycle, run):
    fields = [f" {name}={value}@{run.lattice.names[level]}" for name, (value, level) in run.registers.items()]
    return f"cycle {cycle}:{''.join(fields)}\n"


def refusal_line(cycle, refusal, design):
    site = design.sites[refusal.site - 1]
    return f"cycle {cycle}: site {refusal.site} {site.kind} {site.name} at {design.lattice.names[refusal.level]}\n"


def report(design):
    """Codes of levels, what hangs on which words, check sites."""
    lattice = design.lattice
    lines = [f"level {name} {lattice.code(level)}" for level, name in enumerate(lattice.names)]
    lines += [f"{point.word} {place(point)} hangs {names(point.entities, design)}" for point in design.points()]
    lines += [f"site {number} {place(site)} {site.kind} {site.name}" for number, site in enumerate(design.sites, 1)]
    return "".join(line + "\n" for line in lines)


def place(one):
    return f"{one.place[0]}:{one.place[1]}"


def names(entities, design):
    """Names in the order of declaration, or a dash."""
    return " ".join(name for name in design.entities if name in entities) or "-"
