"""A module that flow/to_subset wrote: what its notes say, and its rows."""

import re
from typing import NamedTuple

from .icarus import Pin
from .modules import Clocked, module_of


class BroughtOver(NamedTuple):
    """The clock's name in the given module, if it has one; whether each output of it is a register, or a register follows it."""

    text: str
    clock: str | None
    outputs: dict

    def module(self):
        return module_of(self.text)

    def given_pins(self):
        """The ports of the given module: what a register follows is looked at before the edge, where the register takes it."""
        module = self.module()
        inputs = [Pin(port.name[2:], port.width) for port in module.inputs()]
        return inputs + [Pin(port.name[2:], port.width, True, self.outputs[port.name[2:]] == "is") for port in module.output_registers()]

    def own_pins(self):
        return [pin._replace(name=f"v_{pin.name}", is_after=True) for pin in self.given_pins()]


def brought_over(text):
    clock = re.search(r"^// clk is (\w+)$", text, re.MULTILINE)
    outputs = dict(reversed(found) for found in re.findall(r"^// v_\w+ (is|follows) (\w+)$", text, re.MULTILINE))
    return BroughtOver(text, clock[1] if clock else None, outputs)


def rows_by_model(module, stimulus):
    """For each cycle the bits of each output register after the edge."""
    run, rows = Clocked(module), []
    for numbers in stimulus:
        run.cycle({port.name: number for port, number in zip(module.inputs(), numbers)})
        rows.append({port.name: f"{run.values[port.name]:0{port.width}b}" for port in module.output_registers()})
    return rows
