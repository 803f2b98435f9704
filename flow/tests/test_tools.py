"""The scripts over common tools: run, device, show, regress and job."""
import os

from .support import LATTICE, Folder, example, needs

DESIGN = "input a : 8;\nreg x : 8 dynamic;\nstate S enforced low {\n  x := a + 1;\n  goto S;\n}\n"


class Tools(Folder):
    def setUp(self):
        super().setUp()
        self.put("d.sapper", DESIGN)
        self.put("one.txt", "5@low\n255@high\n")

    def test_run(self):
        status, lines, errors = self.script("run", "lattice.toml", "d.sapper", "one.txt")
        self.assertEqual((status, errors), (0, []))
        self.assertEqual([line for line in lines if "NOT" in line], [])
        self.assertRegex("\n".join(lines), "testbench by iverilog: (2 rows, those of run|skipped)|testbench: skipped")

    @needs("yosys")
    def test_device(self):
        self.program("compile", "lattice.toml", "d.sapper", "top.v")
        status, lines, _ = self.script("device", "top.v", "--bitstream", "top.bin")
        self.assertEqual(status, 0)
        self.assertRegex(lines[0], r"device: \d+ LUTs, 9 flip-flops, \d+ carries, 0 blocks of memory")
        self.assertEqual(os.path.exists(self.path("top.bin")), lines[-1] == "bitstream: written by icepack")
        self.assertEqual(self.script("device", "--top", "other", "top.v")[::2], (5, ["device: no module other in top.v"]))

    def test_show(self):
        self.program("compile", "lattice.toml", "d.sapper", "top.v")
        self.program("wave", "lattice.toml", "top.v", "one.txt", "run.vcd")
        self.assertEqual(self.done("show", "lattice.toml", "d.sapper", "top.v", "run.vcd"), ["run.levels", "run.gtkw", "gtkwave run.vcd run.gtkw"])
        self.assertEqual(self.held("run.levels"), "0 low\n1 high\n")
        self.put("run.levels", LATTICE)
        told = self.script("show", "run.levels", "d.sapper", "top.v", "run.vcd")
        self.assertEqual(told, (2, [], ["show: run.levels is a file that is read: take another name"]))
        self.program("compile", "lattice.toml", example("first/guarded.sapper"), "other.v")
        self.assertEqual(self.script("show", "lattice.toml", "d.sapper", "other.v", "run.vcd"), (1, [], ["show: run.vcd isn't a dump of other.v"]))

    def test_job(self):
        os.makedirs(self.path("wanted"))
        self.put("wanted/d.one.run", "cycle 1: x=6@low\ncycle 2: x=0@high\n")
        self.assertEqual(self.done("job", "wanted/d.one.run"), ["wanted/d.one.run: as wanted"])
        self.put("wanted/d.one.run", "cycle 1: x=6@low\ncycle 2: x=0@low\n")
        lines = [f"wanted/d.one.run: {command} differs at cycle 2: x=0@low is wanted, it has x=0@high" for command in ("run", "sim")]
        self.assertEqual(self.script("job", "wanted/d.one.run"), (1, lines, []))
        self.assertEqual(self.script("job", "d.sapper"), (2, [], ["job: d.sapper is no job"]))

    @needs("make")
    def test_regress(self):
        os.makedirs(self.path("wanted"))
        os.makedirs(self.path("pairs"))
        self.put("wanted/d.one.run", "cycle 1: x=6@low\ncycle 2: x=0@high\n")
        self.put("wanted/d.one.trace", "")
        self.put("two.txt", "5@low\n7@high\n")
        self.put("pairs/d.one.two.low", "agree at low for 2 cycles\n")
        status, lines, _ = self.script("regress", ".")
        self.assertEqual((status, len(lines), lines[-1]), (0, 4, "Each job gives what is wanted."))
        self.put("pairs/d.one.two.low", "agree at low for 3 cycles\n")
        status, lines, _ = self.script("regress", ".")
        self.assertEqual((status, lines[-1]), (1, "Not each job gives what is wanted."))
        self.assertEqual(self.script("regress", "none")[0], 2)

    def test_help(self):
        for name in ("run", "device", "show", "job", "regress", "wrap", "watch", "lint", "check", "to_subset", "test"):
            with self.subTest(name=name):
                lines = self.done(name, "--help")
                self.assertTrue(lines[0].startswith("usage: "), lines[0])
