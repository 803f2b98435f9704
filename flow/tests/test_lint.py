"""Each kind of warning with a design that gets it and one that doesn't."""
import glob
import os
import re

from common.warnings import KINDS

from .support import Folder, example

# By kind: a design with the place of its warning and words of it, and the same design mended.
CASES = {
    "sign": [
        ("input a : 1;\ninput b : 1;\nreg x : 1 dynamic;\nstate S enforced low {\n  x := a && b;\n  goto S;\n}\n", "5:10", "`a & (&b)`: whether all bits", "a & b"),
        ("input a : 1;\ninput b : 4;\nreg x : 1 dynamic;\nstate S enforced low {\n  x := a || b;\n  goto S;\n}\n", "5:10", "`a | (|b)`: whether any bit", "a | |b"),
    ],
    "always": [
        (
            "input a : 8;\nreg key : 8 enforced high;\nreg x : 8 enforced low;\nstate S enforced low {\n  key := a;\n  x := key;\n  goto S;\n}\n",
            "6:3", "the write of x is refused whenever it is reached: what it is made of is never below high", "x := a",
        ),
        (
            "input a : 2;\nmem k : 8[4] enforced high;\nmem m : 8[4] enforced low;\nreg x : 8 dynamic;\nstate S enforced low {\n  k[a] := 1;\n"
            "  m[a] := k[a];\n  x := m[a];\n  goto S;\n}\n",
            "7:3", "the write of a cell of m is refused", "m[a] := 5",
        ),
        (
            "input a : 8;\nreg x : 8 enforced high under low;\nreg y : 8 enforced high;\nstate S enforced low {\n  y := a;\n  x := y;\n  setTag(x, tag(y));\n  goto S;\n}\n",
            "7:3", "the `setTag` of x is refused", "setTag(x, tag(a))",
        ),
        (
            "state S enforced low {\n  goto Q;\n}\nstate Q enforced high under high {\n  goto Q;\n}\n",
            "2:3", "the authority of Q is never below high, and its tag would have to be at or below low", "Q enforced high under low",
        ),
        ("reg x : 8 enforced high under high;\nstate S enforced low {\n  setTag(x, low);\n  goto S;\n}\n", "3:3", "the authority is never below high", "reg x : 8 enforced high under low"),
    ],
    "context": [
        (
            "input a : 1;\nreg key : 1 enforced high;\nreg x : 8 enforced low;\nstate S enforced low {\n  key := a;\n  if (key) {\n    x := 1;\n  }\n  goto S;\n}\n",
            "7:5", "what leads here is never below high", "if (a)",
        ),
        (
            "reg x : 8 enforced low;\nstate P enforced low {\n  fall;\n  state S enforced high {\n    x := 1;\n    goto S;\n  }\n}\n",
            "5:5", "what leads here is never below high", "state S enforced low",
        ),
        (
            "input a : 1;\nreg key : 1 enforced high;\nreg x : 8 enforced low;\nstate P enforced low {\n  key := a;\n  if (key) {\n    fall;\n  } else {\n"
            "    fall;\n  }\n  state S dynamic {\n    x := 1;\n    goto S;\n  }\n}\n",
            "12:5", "the write of x is refused whenever it is reached: what leads here is never below high", "if (a)",
        ),
    ],
    "never": [
        (
            "input a : 8;\nreg x : 8 enforced high;\nreg n : 8 dynamic;\nstate S enforced low {\n  x := a otherwise {\n    n := n + 1;\n  }\n  goto S;\n}\n",
            "5:10", "the write of x is never refused", "reg x : 8 enforced low",
        ),
    ],
    "unentered": [
        (
            "state S enforced low {\n  goto S;\n}\nstate Q enforced low {\n  goto Q;\n}\n",
            "4:7", "nothing enters the state Q", "goto Q;\n}\nstate Q",
        ),
    ],
    "no-fall": [
        (
            "reg x : 8 dynamic;\nstate P enforced low {\n  goto P;\n  state A enforced low {\n    x := 1;\n    goto A;\n  }\n}\n",
            "4:9", "A: no child of P ever runs", "fall;\n  state A",
        ),
    ],
    "unread": [
        ("input a : 8;\ninput b : 8;\nreg x : 8 dynamic;\nstate S enforced low {\n  x := a;\n  goto S;\n}\n", "2:7", "nothing reads the input b", "x := a + b"),
        ("input a : 2;\nmem m : 8[4] dynamic;\nreg x : 8 dynamic;\nstate S enforced low {\n  m[a] := 1;\n  x := 2;\n  goto S;\n}\n", "2:5", "nothing reads the memory m", "x := m[a]"),
        ("reg x : 8 dynamic;\nreg y : 8 dynamic;\nstate S enforced low {\n  x := 1;\n  goto S;\n}\n", "2:5", "nothing reads the register y, and nothing writes it", "x := y"),
    ],
    "shift": [
        ("input a : 4;\nreg x : 8 dynamic;\nstate S enforced low {\n  x := 1 << a;\n  goto S;\n}\n", "4:8", "loses some from a count of 8 on", "x := 8'd1 << a"),
        ("input a : 1;\nreg x : 8 dynamic;\nstate S enforced low {\n  if (1 << a) {\n    x := 1;\n  }\n  goto S;\n}\n", "4:7", "has the 1 bit of its place", "if (a)"),
    ],
    "cell-tags": [
        (
            "input a : 2;\nmem m : 8[4] enforced low;\nreg x : 8 dynamic;\nstate S enforced low {\n  x := m[a];\n  setTag(m[a], high);\n  goto S;\n}\n",
            "2:5", "a second memory of 4 cells of 1 bit, read", None,
        ),
    ],
}


def mended(text, place, by):
    """A design in which the command or the line at the place is another one, or in which the text without it stands."""
    if by is None:
        return re.sub(r"  setTag\(m.*\n", "", text)
    replaced = {
        "a & b": "a && b", "a | |b": "a || b", "x := a": "x := key", "m[a] := 5": "m[a] := k[a]", "setTag(x, tag(a))": "setTag(x, tag(y))",
        "reg x : 8 enforced high under low": "reg x : 8 enforced high under high", "Q enforced high under low": "Q enforced high under high", "if (a)": None,
        "state S enforced low": "state S enforced high",
        "reg x : 8 enforced low": "reg x : 8 enforced high", "goto Q;\n}\nstate Q": "goto S;\n}\nstate Q", "fall;\n  state A": "goto P;\n  state A",
        "x := a + b": "x := a", "x := m[a]": "x := 2", "x := y": "x := 1", "x := 8'd1 << a": "x := 1 << a",
    }[by]
    replaced = replaced or next(words for words in ("if (key)", "if (1 << a)") if words in text)
    assert text.count(replaced) == 1, (text, replaced)
    return text.replace(replaced, by)


class Lint(Folder):
    def test_each_kind_has_a_design(self):
        self.assertEqual(set(CASES), set(KINDS))

    def test_kinds(self):
        for kind, cases in CASES.items():
            for text, place, words, by in cases:
                with self.subTest(kind=kind, place=place, by=by):
                    self.put("d.sapper", text)
                    status, lines, errors = self.script("lint", "lattice.toml", "d.sapper")
                    self.assertEqual((status, errors), (1, []))
                    own = [line for line in lines if line.endswith(f"[{kind}]")]
                    self.assertEqual(len(own), 1, lines)
                    self.assertTrue(own[0].startswith(f"d.sapper:{place}: warning: "), own)
                    self.assertIn(words, own[0])
                    self.put("d.sapper", mended(text, place, by))
                    status, lines, errors = self.script("lint", "lattice.toml", "d.sapper")
                    self.assertEqual([line for line in lines if line.endswith(f"[{kind}]") or ": error: " in line], [])
                    self.assertEqual((status, errors), (1 if lines else 0, []))
                    status, lines, _ = self.script("lint", "lattice.toml", "d.sapper", "--without", kind)
                    self.assertEqual([line for line in lines if line.endswith(f"[{kind}]")], [])

    def test_refused_in_every_cycle(self):
        """Folding gives the wire of such a site the number 1, which lint reads too."""
        self.put("d.sapper", "input a : 8;\nreg x : 8 enforced low;\nreg y : 8 enforced high;\nstate S enforced low {\n  y := a;\n  x := y;\n  goto S;\n}\n")
        self.program("compile", "lattice.toml", "d.sapper", "top.v")
        self.assertIn("assign c_2 = 1'd1;", self.held("top.v"))
        self.assertEqual(self.script("lint", "lattice.toml", "d.sapper")[1][0][:24], "d.sapper:6:3: warning: t")

    def test_deep_design(self):
        """As deep as a design may be: 64 blocks, 64 brackets and 256 tokens of an expression."""
        expression = "(" * 64 + "~" * 127 + "a" + ")" * 64
        blocks = "if (a == 1) { " * 63, "}" * 63
        self.put("d.sapper", f"input a : 8;\nreg x : 8 dynamic;\nstate S enforced low {{\n{blocks[0]}x := {expression};{blocks[1]}\n  goto S;\n}}\n")
        self.assertEqual(self.done("lint", "lattice.toml", "d.sapper"), [])

    def test_bytes(self):
        """A comment may have any bytes, and ends at LF alone."""
        with open(self.path("d.sapper"), "wb") as file:
            file.write(b"input a : 8; // caf\xe9\r a\ninput b : 8;\nreg x : 8 dynamic;\nstate S enforced low {\n  x := a;\n  goto S;\n}\n")
        status, lines, errors = self.script("lint", "lattice.toml", "d.sapper")
        self.assertEqual((status, lines, errors), (1, ["d.sapper:2:7: warning: nothing reads the input b [unread]"], []))

    def test_kept_registers(self):
        self.put("d.sapper", "reg x : 8 dynamic;\nreg y : 8 dynamic;\nstate S enforced low {\n  x := 1;\n  y := x;\n  goto S;\n}\n")
        self.assertEqual(self.done("lint", "lattice.toml", "d.sapper"), [])
        self.assertEqual(self.done("lint", "lattice.toml", "d.sapper", "--keep", "y"), [])
        status, lines, _ = self.script("lint", "lattice.toml", "d.sapper", "--keep", "x")
        self.assertEqual((status, lines), (1, ["d.sapper:2:5: warning: nothing reads the register y [unread]"]))
        status, _, errors = self.script("lint", "lattice.toml", "d.sapper", "--keep", "z")
        self.assertEqual((status, errors), (2, ["lint: --keep z: no register of d.sapper"]))

    def test_bad_words(self):
        self.put("d.sapper", "state S enforced low { goto S; }\n")
        self.assertEqual(self.script("lint", "lattice.toml", "d.sapper", "--without", "all")[0], 2)
        self.assertEqual(self.script("lint", "lattice.toml")[0], 2)
        status, lines, _ = self.script("lint", "lattice.toml", "missing.sapper")
        self.assertEqual((status, lines), (1, ["missing.sapper:1:1: error: the file can't be read"]))

    def test_examples(self):
        """The examples are what they are meant to be, but for four writes that the pages speak of."""
        found = []
        for design in sorted(glob.glob(example("*/*.sapper"))):
            if os.path.basename(design) != "refused.sapper":
                status, lines, errors = self.script("lint", os.path.join(os.path.dirname(design), "lattice.toml"), design)
                self.assertEqual((status, errors), (1 if lines else 0, []))
                found += [re.sub(r".*/(\w+\.sapper:\d+).*\[(.*)\]", r"\1 \2", line) for line in lines]
        self.assertEqual(found, ["memory.sapper:5 unread", "retag.sapper:3 unread", "comparer.sapper:28 context", "comparer.sapper:29 context"])

    def test_system(self):
        self.put("one.sapper", "input a : 8;\nreg x : 8 dynamic;\nstate S enforced low {\n  x := 1;\n  goto S;\n}\n")
        self.put("system.toml", 'parts = [["p", "one.sapper"], ["q", "one.sapper"]]\nwires = [["p.x", "q.a"]]\n')
        status, lines, errors = self.script("lint", "lattice.toml", "system.toml")
        self.assertEqual((status, lines, errors), (1, ["one.sapper:1:7: warning: nothing reads the input a [unread]"], []))
