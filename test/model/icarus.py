"""Rows of a module of Verilog by Icarus Verilog: what its outputs are in each cycle, as bits."""

import os
import subprocess
from typing import NamedTuple


class Pin(NamedTuple):
    """A port but the clock. An output is looked at before a cycle's edge, or after it."""

    name: str
    width: int
    is_output: bool = False
    is_after: bool = True


BENCH = """module bench_of_rows;
  reg bench_clock = 0;
  integer bench_cycle;
  reg [{most}:0] bench_lines [0:{last}];
{declared}
  {name} bench_given({connected});
  initial begin
    $readmemb("lines.txt", bench_lines);
    for (bench_cycle = 0; bench_cycle <= {last}; bench_cycle = bench_cycle + 1) begin
      {taken}
      #1;
      {before}
      bench_clock = 1;
      #1;
      {after}
      bench_clock = 0;
      #1;
    end
  end
endmodule
"""


def bench_of(name, clock, pins, cycles):
    inputs, outputs = [pin for pin in pins if not pin.is_output], [pin for pin in pins if pin.is_output]
    declared = [f"  {'wire' if pin.is_output else 'reg'} [{pin.width - 1}:0] {pin.name};" for pin in pins]
    declared += [f"  reg [{pin.width - 1}:0] bench_{pin.name};" for pin in outputs]
    connected = [f".{pin.name}({pin.name})" for pin in pins] + ([f".{clock}(bench_clock)"] if clock else [])
    look = lambda pin: f"bench_{pin.name} = {pin.name};"
    shown = ", ".join(f"bench_{pin.name}" for pin in outputs)
    return BENCH.format(
        most=max(sum(pin.width for pin in inputs), 1) - 1,
        last=cycles - 1,
        declared="\n".join(declared),
        name=name,
        connected=", ".join(connected),
        taken=f"{{{', '.join(pin.name for pin in inputs)}}} = bench_lines[bench_cycle];" if inputs else "",
        before=" ".join(look(pin) for pin in outputs if not pin.is_after),
        after=" ".join(look(pin) for pin in outputs if pin.is_after) + f' $display("{" ".join(["%b"] * len(outputs))}", {shown});',
    )


class IcarusFailed(Exception):
    """What a tool says of the module of a file."""

    def __init__(self, file, said):
        super().__init__(f"{file}: {said}")
        self.file = file


def rows_by_icarus(folder, file, name, clock, pins, stimulus):
    """For each cycle the bits of each output, by the name of the port. `stimulus` has a number for each input, in the order of the pins, for each cycle."""
    widths = [pin.width for pin in pins if not pin.is_output]
    lines = ["".join(f"{number:0{width}b}" for number, width in zip(numbers, widths)) or "0" for numbers in stimulus]
    for path, text in (("lines.txt", "".join(f"{line}\n" for line in lines)), ("bench.v", bench_of(name, clock, pins, len(stimulus)))):
        with open(os.path.join(folder, path), "w", encoding="ascii") as out:
            out.write(text)
    called(folder, file, "iverilog", "-g2005", "-o", "bench.out", "-s", "bench_of_rows", "bench.v", file)
    rows = [line.split(" ") for line in called(folder, file, "vvp", "-n", "bench.out").splitlines()]
    outputs = [pin.name for pin in pins if pin.is_output]
    return [dict(zip(outputs, row)) for row in rows]


def called(folder, file, *words):
    done = subprocess.run(words, cwd=folder, capture_output=True, text=True, check=False)
    if done.returncode or done.stderr:
        raise IcarusFailed(file, f"{words[0]}: {(done.stderr or done.stdout).strip()[:300]}")
    return done.stdout
