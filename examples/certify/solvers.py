"""Questions asked of a solver by way of Yosys: its own `sat`, or an SMT solver that `yosys-smtbmc` drives."""

import os
import re
import signal
import subprocess
from dataclasses import dataclass, field

# Any state may come before a cycle, and the two copies have one each. So no pass may take a register out, or make one of two that take the same number: of
# the passes that make a circuit smaller only some are used, and none on registers. They are counted before and after. (Without `-nomem2reg` a memory that is
# only written at a fixed place would be registers, and those of its other cells would have no number.)
READ = "read_verilog -nomem2reg question.v; {beside} hierarchy -check -top question; proc; flatten; {starts} opt_clean; {count} opt_expr; opt_clean;"
FOR_SAT = READ + " memory_map; opt_expr; opt_merge t:$dff t:$_DFF_* %u %n; opt_clean; {count} write_rtlil question.il"
FOR_SMT = READ + " memory_collect; opt_clean; {count} write_smt2 -wires question.smt2"
SMT_SOLVERS = ("z3", "bitwuzla", "yices", "boolector", "cvc4", "mathsat")


class ToolFailed(Exception):
    """What a tool says where it should have answered."""


@dataclass
class Answer:
    """Whether a pair was found, or None where the solver didn't answer; the numbers of the question's names in each step; the size of the formula."""

    found: bool | None
    steps: list = field(default_factory=list)
    variables: int | None = None


@dataclass(frozen=True)
class Setting:
    """What is read beside a question, what is done to the starts of a netlist's registers, and between which numbers that of a question's registers has to
    be, where that is known. The registers that have a chosen cell's number aren't needed where nothing is written."""

    beside: str = ""
    starts: str = ""
    registers: tuple | None = None

    def script(self, form):
        least, most = self.registers or (0, 0)
        count = f"select -assert-min {least} t:$dff; select -assert-max {most} t:$dff;" if self.registers else ""
        return form.format(beside=self.beside, starts=self.starts, count=count)


def called(words, folder, seconds=None):
    """The status and the text of a command; None where it doesn't end in time. What it started is ended with it."""
    with subprocess.Popen(words, cwd=folder, stdout=subprocess.PIPE, stderr=subprocess.STDOUT, text=True, start_new_session=True) as process:
        try:
            said, _ = process.communicate(timeout=seconds)
        except subprocess.TimeoutExpired:
            os.killpg(process.pid, signal.SIGKILL)
            process.communicate()
            return None
        except BaseException:
            os.killpg(process.pid, signal.SIGKILL)
            raise
    return process.returncode, said


def yosys(script, folder, seconds=None):
    done = called(["yosys", "-p", script], folder, seconds)
    if done and done[0]:
        raise ToolFailed(next((line for line in done[1].splitlines() if "ERROR" in line), "yosys failed"))
    return done and done[1]


class Sat:
    """Yosys' `sat`, which has MiniSat within."""

    name = "sat"

    def __init__(self, folder, setting):
        self.folder = folder
        yosys(setting.script(FOR_SAT), folder)

    def ask(self, given, denied, step, level, seconds):
        """Whether there is a run in which `given` holds in step 1, and `denied` (if there is one) doesn't in this step; at any level where it is None."""
        words = [f"-seq {step} -dump_vcd answer.vcd -show-public"]
        words += [f"-set-at 1 {name} 1" for name in given] + ([] if level is None else [f"-set-at 1 level {level}"])
        words += [f"-set-at {step} {denied} 0"] if denied else []
        said = yosys(f"read_rtlil question.il; sat {' '.join(words)} question", self.folder, seconds)
        if said is None:
            return Answer(None)
        size = re.search(r"Solving problem with (\d+) variables", said)
        variables = int(size[1]) if size else None
        if "SAT solving finished - no model found" in said:
            return Answer(False, variables=variables)
        if "SAT solving finished - model found" not in said:
            raise ToolFailed("yosys: sat didn't answer")
        return Answer(True, steps_of_dump(os.path.join(self.folder, "answer.vcd"), step), variables)


class Smt:
    """An SMT solver. Each question is asked of a new process of it, which is many times as fast as one that is asked several."""

    def __init__(self, name, folder, setting):
        self.name = name
        self.folder = folder
        yosys(setting.script(FOR_SMT), folder)
        with open(os.path.join(folder, "question.smt2"), encoding="ascii") as file:
            self.level_width = int(re.search(r"; yosys-smt2-register level (\d+)", file.read())[1])

    def ask(self, given, denied, step, level, seconds):
        lines = ["state 0", *(f"assume (= [{name}] true)" for name in given)]
        if level is not None:
            number = f"#b{level:0{self.level_width}b}" if self.level_width > 1 else ("true" if level else "false")
            lines.append(f"assume (= [level] {number})")
        lines.append(f"state {step - 1}")
        lines.append(f"assert (= [{denied}] true)" if denied else "assert false")
        with open(os.path.join(self.folder, "question.smtc"), "w", encoding="ascii") as file:
            file.write("\n".join(lines) + "\n")
        words = ["yosys-smtbmc", "-s", self.name, "--unroll", "--noincr", "--noinit", "--noprogress", "-t", f"{step - 1}:{step}"]
        done = called([*words, "--smtc", "question.smtc", "--dump-vcd", "answer.vcd", "question.smt2"], self.folder, seconds)
        if done is None:
            return Answer(None)
        if "Status: PASSED" in done[1]:
            return Answer(False)
        if "BMC failed!" not in done[1]:
            last = (done[1].strip().splitlines() or ["it failed"])[-1]
            raise ToolFailed(f"{self.name}: {re.sub(r'^##[ 0-9:]*', '', last)}")
        return Answer(True, steps_of_dump(os.path.join(self.folder, "answer.vcd"), step))


def solver_for(asked, folder, setting):
    """The solver that is asked for by name; else `sat`."""
    return Sat(folder, setting) if asked in (None, "sat") else Smt(asked, folder, setting)


def steps_of_dump(path, steps):
    """The numbers of all names in each step of a value change dump. A step is a time of the dump at which something is told."""
    names, now, at = {}, {}, {}
    with open(path, encoding="ascii") as file:
        time, scope = None, []
        for line in file:
            words = line.split()
            match words:
                case ["$scope", _, name, "$end"]:
                    scope.append(name)
                case ["$upscope", "$end"]:
                    scope.pop()
                case ["$var", _, _, sign, name, *_]:
                    names.setdefault(sign, []).append(name.lstrip("\\"))
                case [text] if text.startswith("#"):
                    time = int(text[1:])
                case [value, sign] if value.startswith("b"):
                    now[sign] = number_of(value[1:])
                    at.setdefault(time, {})[sign] = now[sign]
                case [text] if text[0] in "01xz" and text[1:] in names:
                    now[text[1:]] = number_of(text[0])
                    at.setdefault(time, {})[text[1:]] = now[text[1:]]
    return told_at(at, names)[:steps]


def number_of(bits):
    return int(re.sub("[^01]", "0", bits), 2)


def told_at(at, names):
    """For each time the numbers by name; what isn't told anew stays."""
    found, numbers = [], {}
    for time in sorted(at):
        numbers = numbers | {name: number for sign, number in at[time].items() for name in names[sign]}
        found.append(numbers)
    return found
