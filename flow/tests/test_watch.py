"""The dump of a run beside what the program writes of it, and what GTKWave is told."""
import os
import re

from common.interface import Interface
from common.program import TOP

from .support import LATTICE, Folder, example, needs

RUNS = [("processor", "kernel", "one"), ("language", "memory", "memory"), ("language", "modes", "modes"), ("verilog", "comparer", "far"), ("owners", "box", "held")]
DESIGN = "input a : 8;\nreg x : 8 dynamic;\nstate S enforced low {\n  x := a;\n  goto S;\n}\n"

# Writes what GTKWave shows of each trace at two times.
TCL = """set out [open shown w]
foreach time {35 55} {
  gtkwave::setMarker $time
  for {set at 0} {$at < [gtkwave::getTotalNumTraces]} {incr at} {
    puts $out "$time|[gtkwave::getTraceNameFromIndex $at]|[gtkwave::getTraceValueAtMarkerFromIndex $at]"
  }
}
close $out
exit
"""


def dumped(text):
    """The width of each variable of a dump, and the numbers that all have from each time on."""
    names = {sign: (name, int(width)) for width, sign, name in re.findall(r"\$var \w+ +(\d+) (\S+) (\w+)(?: \[\d+:0\])? \$end", text)}
    now, at, times = {}, 0, {}
    for line in text.split("$enddefinitions $end")[1].split("\n"):
        found = re.fullmatch(r"b([01]+) (\S+)|([01])(\S+)", line)
        if line.startswith("#"):
            times[at] = dict(now)
            at = int(line[1:])
        elif found:
            now[names[found[2] or found[4]][0]] = int(found[1] or found[3], 2)
    return dict(names.values()), times | {at: now}


def seen(times, cycle):
    """What all variables have within a cycle."""
    return times[max(time for time in times if time <= 10 * (cycle - 1))]


class Watch(Folder):
    def watched(self, folder, name, stimulus, *words):
        lattice, design, stimulus = (example(f"{folder}/{file}") for file in ("lattice.toml", f"{name}.sapper", f"{stimulus}.txt"))
        self.done("watch", lattice, design, stimulus, "run.vcd", *words)
        return lattice, design, stimulus, *dumped(self.held("run.vcd"))

    def names(self, ending):
        lines = [line.split(" ") for line in self.held(f"run.{ending}").splitlines()]
        return {int(number, 2): name for number, name in lines}

    @needs("iverilog", "vvp")
    def test_rows_and_refusals(self):
        for folder, name, stimulus in RUNS:
            with self.subTest(name=name):
                lattice, design, stimulus, _, times = self.watched(folder, name, stimulus)
                levels, refused, interface = self.names("levels"), self.names("refused"), Interface(lattice, design)
                rows = self.program("run", lattice, design, stimulus)
                found = []
                for cycle, row in enumerate(rows, 1):
                    after = seen(times, cycle + 1)
                    shown = "".join(f" {register}={after[f'v_{register}']}@{levels[after[f't_{register}']]}" for register in interface.registers)
                    self.assertEqual(f"cycle {cycle}:{shown}", row)
                    here = seen(times, cycle)
                    self.assertEqual(here["cycle"], cycle)
                    for one in interface.refusals:
                        self.assertEqual(refused[here[one.level_name]] == "-", not here[one.name])
                        found += [(str(cycle), one.wire[2:], refused[here[one.level_name]])] if here[one.name] else []
                trace = self.program("trace", lattice, design, stimulus)
                self.assertEqual(found, [re.match(r"cycle (\d+): site (\d+) .* at (\w+)$", line).groups() for line in trace])
                self.assertEqual([one.name for one in interface.refusals if seen(times, len(rows) + 1)[one.name]], [])

    @needs("iverilog", "vvp")
    def test_states(self):
        """The states of the processor in the order of its page: four cycles of a user, then one of the kernel."""
        *_, times = self.watched("processor", "kernel", "one")
        outer, inner = self.names("state_0"), self.names("state_User")
        told = [(outer[seen(times, cycle)["state_0"]], inner[seen(times, cycle)["state_User"]]) for cycle in range(1, 16)]
        self.assertEqual(told[:6], [("Kernel", "-")] + [("User", "Step")] * 4 + [("Kernel", "-")])
        self.assertEqual(told[12:15], [("User", "Step"), ("User", "Stopped"), ("User", "Stopped")])

    @needs("iverilog", "vvp")
    def test_inputs_and_memories(self):
        _, _, stimulus, widths, times = self.watched("language", "memory", "memory", "--memory", "m", "--memory", "k:0-1")
        levels = self.names("levels")
        with open(stimulus, encoding="utf-8") as file:
            lines = file.read().splitlines()
        for cycle, line in enumerate(lines, 1):
            here = seen(times, cycle)
            self.assertEqual(" ".join(f"{here[f'v_{name}']}@{levels[here[f't_{name}']]}" for name in "ab"), line)
        # m[a] is 5 from the next cycle on, and the memory has the level of a.
        value, level = lines[0].split(" ")[0].split("@")
        self.assertEqual((seen(times, 1)[f"mem_m_{value}"], seen(times, 2)[f"mem_m_{value}"]), (0, 5))
        self.assertEqual((levels[seen(times, 1)["memtag_m"]], levels[seen(times, 2)["memtag_m"]]), ("low", level))
        shown = {name for name in widths if name.startswith("mem")}
        self.assertEqual(shown, {"memtag_m", *(f"mem_m_{cell}" for cell in range(4)), *(f"mem{word}_k_{cell}" for word in ("", "tag") for cell in range(2))})

    @needs("iverilog", "vvp")
    def test_save_file(self):
        """Each variable that is shown is one of the dump, by a file that is there; names are as wide as what they are for."""
        *_, widths, _ = self.watched("processor", "kernel", "one", "--memory", "a_mem")
        shown, file = [], None
        for line in self.held("run.gtkw").splitlines():
            if line.startswith("^"):
                file = line.split(" ")[1]
            signal = re.fullmatch(r"(?:#\{\w+\} )?watch\.(\w+)(?:\[(\d+):0\])?", line)
            if signal:
                shown.append(signal[1])
                self.assertEqual(widths[signal[1]], int(signal[2] or 0) + 1)
                if file:
                    with open(file, encoding="utf-8") as names:
                        self.assertTrue(all(len(name.split(" ")[0]) == widths[signal[1]] for name in names))
                file = None
        self.assertEqual(set(shown), set(widths) - {"clk", "on"})
        self.assertTrue(os.path.exists(self.path("run.levels")))

    @needs("iverilog", "vvp", "xvfb-run", "gtkwave")
    def test_in_gtkwave(self):
        """What GTKWave has beside each name in two cycles: states and levels by their names, values in hexadecimal, the cycle in decimal."""
        self.watched("processor", "kernel", "one", "--memory", "a_mem:3")
        self.put("shown.tcl", TCL)
        told = self.call("timeout", "60", "xvfb-run", "-a", "gtkwave", "-S", "shown.tcl", "run.vcd", "run.gtkw")
        if "Tcl support not compiled" in told.stdout + told.stderr:
            self.skipTest("gtkwave without Tcl")
        shown = {}
        for line in self.held("shown").splitlines():
            time, name, value = line.split("|")
            shown.setdefault(int(time), {})[name.partition("[")[0]] = value
        # In cycle 4 a, whose acc is 5, asks to write it to b's memory, and may not; in cycle 6 the kernel switches.
        fourth = {"cycle": "4", "state_0": "User", "state_User": "Step", "v_word": "63", "t_word": "a", "v_acc": "05", "t_acc": "a", "mem_a_mem_3": "05",
                  "memtag_a_mem_3": "a", "v_left": "1", "t_left": "low", "refused_write_b_mem": "1", "level_write_b_mem": "both", "refused_write_acc_3": "0"}
        sixth = {"cycle": "6", "state_0": "Kernel", "state_User": "-", "v_word": "00", "t_word": "low", "v_acc": "05", "t_acc": "a",
                 "refused_write_b_mem": "0", "level_write_b_mem": "-"}
        for time, wanted in ((35, fourth), (55, sixth)):
            self.assertEqual({name: shown[time][name] for name in wanted}, wanted)

    @needs("iverilog", "vvp")
    def test_system(self):
        lattice, system, stimulus = (example(f"linked/{name}") for name in ("lattice.toml", "system.toml", "one.txt"))
        self.at = TOP
        self.done("watch", lattice, system, stimulus, self.path("run.vcd"))
        _, times = dumped(self.held("run.vcd"))
        levels = self.names("levels")
        self.program("link", lattice, system, self.path("top.v"))
        for cycle, row in enumerate(self.program("sim", lattice, self.path("top.v"), stimulus), 1):
            after = seen(times, cycle + 1)
            for name, value, level in re.findall(r" (\w+)=(\d+)@(\w+)", row):
                self.assertEqual((after[f"v_{name}"], levels[after[f"t_{name}"]]), (int(value), level))

    @needs("iverilog", "vvp")
    def test_no_file_that_is_read(self):
        """Neither OUT nor what is written beside it."""
        words = [self.put(name, text) for name, text in (("run.levels", LATTICE), ("d.sapper", DESIGN), ("one.txt", "5@low\n"))]
        told = self.script("watch", *words, "run.vcd")
        self.assertEqual(told, (2, [], ["watch: run.levels is a file that is read: take another name"]))
        os.link(self.path("one.txt"), self.path("out.vcd"))
        told = self.script("watch", *words, "out.vcd")
        self.assertEqual(told, (2, [], ["watch: out.vcd is a file that is read: take another name"]))
        self.assertEqual([self.held(name) for name in words], [LATTICE, DESIGN, "5@low\n"])
        self.assertEqual(self.done("watch", *words, "other.vcd")[0], "other.vcd")

    @needs("iverilog", "vvp")
    def test_bad_words(self):
        words = [example("processor/lattice.toml"), example("processor/kernel.sapper"), example("processor/one.txt")]
        self.assertEqual(self.script("watch", *words, "run.wave")[0], 2)
        for memory, line in (("c", "--memory c: no memory: a_mem, b_mem"), ("a_mem:3-16", "--memory a_mem:3-16: cells of a_mem are 0-15")):
            self.assertEqual(self.script("watch", *words, "run.vcd", "--memory", memory), (2, [], [f"watch: {line}"]))
        self.put("other.txt", "1@low 2@low\n")
        self.assertEqual(self.script("watch", *words[:2], "other.txt", "run.vcd"), (4, [], ["watch: stimulus 1: S4 line 1"]))
