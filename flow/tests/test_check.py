"""Each code's line, with its place, in the form that editors' patterns take."""
import re

from common.program import PROGRAM

from .support import Folder, example

# Lattices with the place of their fault and what is told.
LATTICES = [
    ("levels = low, high\n", (1, 10), "L1", ""),
    ('levels = ["low"\n', (2, 1), "L1", ""),
    ('levels = ["low"', (1, 16), "L1", ""),
    ('levels = ["low", "high"]\n', (1, 1), "L2", ""),
    ('levels = ["low", "high"]\nbelow = []\nabove = []\n', (3, 1), "L2", ""),
    ('# one\nlevels = ["low"]\nbelow = []\n', (2, 1), "L3", " (1)"),
    ('levels = [\n  "low",\n  "low", # again\n]\nbelow = []\n', (3, 3), "L4", " (2)"),
    ('levels = ["low", "high"]\nbelow = [["low", "high"],\n  ["low", "hi"]]\n', (3, 3), "L5", " (2)"),
    ('levels = ["low", "high"]\nbelow = [["low", "high"], ["high", "low"]]\n', (1, 11), "L6", " (low high)"),
    ('levels = ["low", "a", "b"]\nbelow = [["low", "a"], ["low", "b"]]\n', (1, 18), "L7", " (a b)"),
    ('below = [["a", "top"], ["b", "top"]]\nlevels = ["a", "b", "top"]\n', (2, 1), "L8", ""),
]
PARTS = 'parts = [["p", "one.sapper"], ["q", "one.sapper"]]\n'
SYSTEMS = [
    ('parts = [["p", "one.sapper"]\n', (2, 1), "K1", ""),
    (PARTS, (1, 1), "K2", ""),
    (PARTS + "wires = []\nmore = 1\n", (3, 1), "K2", ""),
    ("parts = []\nwires = []\n", (1, 1), "K3", " (0)"),
    ('parts = [["p", "one.sapper"],\n  ["key_store", "one.sapper"]]\nwires = []\n', (2, 4), "K4", " (2)"),
    (PARTS + 'wires = [["p.x", "q.a"], ["p.a", "p.b"]]\n', (2, 27), "K5", " (2)"),
    (PARTS + 'wires = [["p.x", "q.x"]]\n', (2, 18), "K6", " (1)"),
    (PARTS + 'wires = [\n  ["p.x", "q.a"],\n  ["q.x", "q.a"],\n]\n', (4, 11), "K7", " (2)"),
    (PARTS + 'wires = [["p.x", "q.b"]]\n', (2, 11), "K8", " (1)"),
    (PARTS + 'wires = [["p.x", "q.a", "middle"]]\n', (2, 25), "K9", " (1)"),
]
ONE = "input a : 8;\ninput b : 4;\nreg x : 8 dynamic;\nstate S enforced low {\n  x := a + zext(b, 8);\n  goto S;\n}\n"
STATE = "state S enforced low {\n"
# For each code of designs a design, the place, and how the line ends: behind the title what the program names, and the first sentence of the cure.
DESIGNS = {
    "E1": (f"input a : 8; // 8 bits\nreg x : 8 dynamic;\n{STATE}  x := a @ 1;\n  goto S;\n}}\n", "4:10", ". Write it with the signs of the language: "
           "`:= == != <= << >> ( ) { } [ ] : ; , ? = < + - * & | ^ ~`."),
    "E2": ("reg x : 8 dynamic;\n", "2:1", ". Look at what stands just before the place."),
    "E3": (f"input a : 8;\nmem a : 8[2] dynamic;\n{STATE}  goto S;\n}}\n", "2:5", ". Give one of them another name."),
    "E4": (f"{STATE}  goto T;\n}}\n", "2:8", ". Declare it, or write the name that was meant."),
    "E5": (f"input a : 8;\n{STATE}  a := 1;\n  goto S;\n}}\n", "3:3", ". Use an entity of the right kind."),
    "E6": (f"reg x : 8 enforced middle;\n{STATE}  goto S;\n}}\n", "1:20", ". Write a level that the lattice file lists under `levels`, or add the level there."),
    "E7": (f"input a : 8;\nreg x : 4 dynamic;\n{STATE}  x := 1 + a;\n  goto S;\n}}\n", "4:8", ". Take part of the number, `a[3:0]`, or widen it, `zext(a, 16)`."),
    "E8": (f"reg x : 4 dynamic = 16;\n{STATE}  goto S;\n}}\n", "1:21", ". Write a smaller number, or widen what it is written to."),
    "E9": (f"reg x : 8 enforced low under high;\n{STATE}  goto S;\n}}\n", "1:20", ". Raise the level behind `enforced`, or lower the one behind `under`, "
           "so that the second is at or below the first."),
    "E10": (f"{STATE}}}\n", "2:1", ", in both branches of an `if` that ends it, in each block of a `case` or behind `then`, and in the handler of a transfer, "
            "and put none before the end, nor into the handler of anything else."),
    "E11": (f"state P enforced low {{\n  fall;\n  {STATE}    goto P;\n  }}\n}}\n", "4:10", ". Go to a state beside the one in whose body the `goto` stands, "
            "or to that state itself."),
    "E12": (f"{STATE}  fall;\n}}\n", "2:3", ". Use `goto`, or give the state a child."),
    "E14": (f"mem m : 8[2] dynamic;\n{STATE}  m[0] := 1;\n  m[1] := 2;\n  goto S;\n}}\n", "4:3", ". Write in one cycle at most one cell of each memory on each way: "
            "put the writes into two branches of an `if`, into two states, or into two memories."),
    "E15": (f"reg x : 8 dynamic;\n{STATE}  x := 1 otherwise {{ }}\n  goto S;\n}}\n", "3:10", ". Leave the handler out, or make the target enforced."),
    "E16": (f"reg x : 8 dynamic;\n{STATE}  setTag(x, high);\n  goto S;\n}}\n", "3:10", ". Declare the entity enforced, or leave the `setTag` out."),
    "E17": (f"{STATE}  setTag(S, high);\n  goto S;\n}}\n", "2:10", ". Put the `setTag` into the body of a state of another branch of the tree."),
    "E18": (f"input {'a' * 41} : 8;\n{STATE}  goto S;\n}}\n", "1:7", " (name). Make the design smaller there: shorter names, an expression in two assignments, "
            "flatter states."),
}
# What is met often, with the sentence for it.
MET = [
    ("input a : 1;\nreg x : 8 dynamic;\nstate S enforced low { if (a = 1) { x := 1; } goto S; }\n", "3:30", "E2", "`==` compares."),
    ("mem m : 1[2] dynamic;\nreg x : 1 dynamic;\nstate S enforced low { x := m[0] = 1; goto S; }\n", "3:34", "E2", "`==` compares."),
    ("mem m : 8[2] dynamic;\nreg x : 1 dynamic;\nstate S enforced low { m[(x)] = 1; goto S; }\n", "3:31", "E2", "An assignment is `:=`."),
    ("reg x : 1 dynamic;\nstate S enforced low { if (x == 0) x := 1; goto S; }\n", "2:36", "E2", "Each block stands in `{` and `}`"),
    ("reg x : 1 dynamic;\nstate S enforced low { if (x == (0)) { x := 1; } else goto S; }\n", "2:55", "E2", "Each block stands in `{` and `}`"),
    ("input a : 8;\nreg x : 8 dynamic;\nstate S enforced low {\n  if (a == 1) { x := 1; } else if (a == 2) { x := 2; }\n  goto S;\n}\n", "4:32", "E2", "There is no `else if`"),
    ("reg [7:0] x dynamic;\n", "1:5", "E2", "The width stands behind the name: `reg x : 8`."),
    ("input [7:0] x;\n", "1:7", "E2", "`input x : 8`."),
    ("reg x : 8 dynamic;\nstate S enforced low { x <= 1; goto S; }\n", "2:26", "E2", "An assignment is `:=`."),
    ("reg x : 8 dynamic;\nstate S enforced low { x = 1; goto S; }\n", "2:26", "E2", "An assignment is `:=`."),
    ("mem x : 8[2] dynamic;\nstate S enforced low { x[1] = 1; goto S; }\n", "2:29", "E2", "An assignment is `:=`."),
    ("reg level : 8 dynamic;\nstate S enforced low { goto S; }\n", "1:5", "E2", "`level` is a keyword"),
    ("sapper 2;\nreg x : 8 dynamic;\nstate S enforced low { case (x) { 1: { x := 2; } } goto S; }\n", "3:50", "E2", "A `case` ends with `else {..}`."),
    ("reg x : 8 dynamic;\nstate S enforced low { case (x) { 1: { x := 2; } else {} } goto S; }\n", "2:29", "E2", "need the first line `sapper 2;`"),
    ("input a : 8;\nreg x : 1 dynamic;\nstate S enforced low { x := a[3]; goto S; }\n", "3:29", "E5", "bit 3 of `a` is `a[3:3]`"),
    ("input a : 1;\ninput b : 2;\nreg x : 1 dynamic;\nstate S enforced low { x := a && b == 2; goto S; }\n", "4:39", "E8", "`&&` is two signs"),
    ("input a : 8;\nreg x : 1 dynamic;\nstate S enforced low { if (a && a) { x := 1; } goto S; }\n", "3:28", "E7", "`&&` is two signs"),
    ("input a : 1;\nreg x : 1 dynamic;\nstate S enforced low { x := !a; goto S; }\n", "3:29", "E1", "`!a` is `~a` for one bit"),
]


class Check(Folder):
    def setUp(self):
        super().setUp()
        self.put("one.sapper", ONE)

    def lines(self, *words):
        status, lines, errors = self.script("check", *words)
        self.assertEqual((status, errors), (1, []))
        return lines

    def title(self, code):
        return self.program("--explain", code)[0].rstrip(".")

    def test_designs(self):
        """The example of each code of designs, at the place that the program tells, with the title and the cure."""
        for number in (*range(1, 13), *range(14, 19)):
            code = f"E{number}"
            with self.subTest(code=code):
                text = "\n".join(self.program("--explain", code))
                shown = re.search(r"Example:\n\n((?:    .*\n|\n)+)", text)[1]
                self.put("d.sapper", re.sub(r"^    ", "", shown, flags=re.MULTILINE))
                told = self.call(PROGRAM, "report", "lattice.toml", "d.sapper").stderr.strip().removeprefix("design: ").split(" ")
                (line,) = self.lines("lattice.toml", "d.sapper")
                named = "" if len(told) == 2 else f" ({told[2]})"
                self.assertTrue(line.startswith(f"d.sapper:{told[1]}: error: {self.title(code)}{named}. "), line)
                self.assertEqual(told[0], code)
                cure = line.partition(f"{self.title(code)}{named}. ")[2].split(". ")[0].split(": here")[0].rstrip(".")
                self.assertIn(cure, " ".join(text.split()))

    def test_lines(self):
        """The whole of each line, the title aside, which test_designs looks at."""
        self.assertEqual(set(DESIGNS), {f"E{number}" for number in range(1, 19)} - {"E13"})
        for code, (text, _, _) in DESIGNS.items():
            self.put(f"{code}.sapper", text)
        for (code, (_, place, end)), line in zip(DESIGNS.items(), self.lines("lattice.toml", *(f"{code}.sapper" for code in DESIGNS)), strict=True):
            self.assertTrue(line.startswith(f"{code}.sapper:{place}: error: {code}: "), line)
            self.assertTrue(line.endswith(end), line)

    def test_bytes(self):
        """A comment may have any bytes, columns count them, a line ends at LF alone, and a number may have any count of digits."""
        more = "9" * 5000
        for data, place, code, sentence in (
            (b"input a : 8; // caf\xe9\nreg x : 1 dynamic;\nstate S enforced low { x := a[3]; goto S; }\n", "3:29", "E5", "bit 3 of `a`"),
            (b"reg x : 8 dynamic;\rstate S enforced low { x = 1; goto S; }\n", "1:45", "E2", "An assignment is `:=`."),
            (b"// two\r words\nreg x : 8 dynamic;\nstate S enforced low { x = 1; goto S; }\n", "3:26", "E2", "An assignment is `:=`."),
            (b"/* caf\xc3\xa9 */\n", "1:1", "E1", "A comment begins with `//`"),
            ("// é\nreg é : 8 dynamic;\n".encode(), "2:5", "E1", "a byte begins no token"),
            (f"reg x : 8 dynamic = {more};\n".encode(), "1:21", "E1", "a number is badly written"),
        ):
            with self.subTest(data=data[:40]):
                with open(self.path("d.sapper"), "wb") as file:
                    file.write(data)
                (told,) = self.lines("lattice.toml", "d.sapper")
                self.assertTrue(told.startswith(f"d.sapper:{place}: error: {code}: "), told)
                self.assertIn(sentence, told)
        with open(self.path("l.toml"), "wb") as file:
            file.write(b'# levels\nlevels = ["low", "h\xe9"]\nbelow = []\n')
        (told,) = self.lines("l.toml")
        self.assertTrue(told.startswith("l.toml:2:20: error: L1: "), told)

    def test_lattices(self):
        for text, (line, column), code, named in LATTICES:
            with self.subTest(code=code, text=text):
                self.put("l.toml", text)
                for words in (["l.toml"], ["l.toml", "one.sapper"]):
                    (told,) = self.lines(*words)
                    self.assertTrue(told.startswith(f"l.toml:{line}:{column}: error: {self.title(code)}{named}. "), told)

    def test_systems(self):
        for text, (line, column), code, named in SYSTEMS:
            with self.subTest(code=code, text=text):
                self.put("system.toml", text)
                (told,) = self.lines("lattice.toml", "system.toml")
                self.assertTrue(told.startswith(f"system.toml:{line}:{column}: error: {self.title(code)}{named}. "), told)

    def test_fault_of_a_part(self):
        self.put("bad.sapper", "reg x : 8 dynamic;\nstate S enforced low {\n  x := y;\n  goto S;\n}\n")
        self.put("system.toml", 'parts = [["p", "one.sapper"], ["q", "bad.sapper"]]\nwires = []\n')
        (told,) = self.lines("lattice.toml", "system.toml")
        self.assertTrue(told.startswith("bad.sapper:3:8: error: E4: "), told)

    def test_what_is_met(self):
        for text, place, code, sentence in MET:
            with self.subTest(text=text):
                self.put("d.sapper", text)
                (told,) = self.lines("lattice.toml", "d.sapper")
                self.assertTrue(told.startswith(f"d.sapper:{place}: error: {code}: "), told)
                self.assertIn(sentence, told)

    def test_no_fault(self):
        self.assertEqual(self.done("check", "lattice.toml"), [])
        self.assertEqual(self.done("check", "lattice.toml", "one.sapper"), [])
        self.assertEqual(self.done("check", example("first/lattice.toml"), example("first/adder.sapper"), example("first/guarded.sapper")), [])
        self.put("system.toml", PARTS + 'wires = [["p.x", "q.a"]]\n')
        self.assertEqual(self.done("check", "lattice.toml", "system.toml"), [])

    def test_missing_files(self):
        for words, missing in ((("none.toml", "one.sapper"), "none.toml"), (("lattice.toml", "none.sapper"), "none.sapper"), (("lattice.toml", "none.toml"), "none.toml")):
            self.assertEqual(self.lines(*words), [f"{missing}:1:1: error: the file can't be read"])
        self.put("system.toml", 'parts = [["p", "one.sapper"],\n  ["q", "gone.sapper"]]\nwires = []\n')
        self.assertEqual(self.lines("lattice.toml", "system.toml"), ["system.toml:2:9: error: the file gone.sapper of this part can't be read"])

    def test_several_files(self):
        self.put("d.sapper", "reg x : 8 dynamic\n")
        self.assertEqual(len(self.lines("lattice.toml", "d.sapper", "one.sapper", "d.sapper")), 1)
