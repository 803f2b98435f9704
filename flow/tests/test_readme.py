"""The commands of flow/README.md give what stands behind them there."""
import os
import re

from common.program import PROGRAM, TOP

from .support import Folder, needs
from .test_to_subset import COUNTER


def commands(page):
    """The commands of a page, each with what it gives; a line that is continued is one command."""
    for block in re.findall(r"(?:^    .*\n)+", page, re.MULTILINE):
        text = re.sub(r"^    ", "", block, flags=re.MULTILINE).replace("\\\n", "")
        for part in re.split(r"^\$ ", text, flags=re.MULTILINE)[1:]:
            command, _, given = part.partition("\n")
            yield command, given


class Readme(Folder):
    @needs("bash", "iverilog", "vvp", "yosys", "nextpnr-ice40", "icepack")
    def test_examples(self):
        for name, path in (("examples", f"{TOP}/examples"), ("flow", f"{TOP}/flow"), ("sapper", os.path.realpath(PROGRAM))):
            os.symlink(path, self.path(name))
        self.put("counter.v", COUNTER)
        with open(f"{TOP}/flow/README.md", encoding="utf-8") as file:
            found = list(commands(file.read()))
        self.assertGreater(len(found), 10)
        self.put("script", "".join(f"{command}\necho '=== end'\n" for command, _ in found))
        ran = self.call("bash", "-c", "bash script 2>&1")
        for (command, wanted), given in zip(found, ran.stdout.split("=== end\n")):
            # A long line is broken on the page, and of several warnings it has the first.
            lines = given.splitlines()[:1] if "flow/lint" in command else given.splitlines()
            self.assertEqual(" ".join(" ".join(lines).split()), " ".join(wanted.split()), command)
