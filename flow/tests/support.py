"""What the tests share: a folder for their files, and calls of scripts and tools."""
import os
import shutil
import subprocess
import tempfile
import unittest

from common.program import PROGRAM, TOP

LATTICE = 'levels = ["low", "high"]\nbelow = [["low", "high"]]\n'
# Of its tags 2 is no code.
CHAIN = 'levels = ["low", "middle", "high"]\nbelow = [["low", "middle"], ["middle", "high"]]\n'


def needs(*tools):
    """Skips a test where the machine lacks one of these tools."""
    lacks = [tool for tool in tools if not shutil.which(tool)]
    return unittest.skipIf(lacks, f"no {', '.join(lacks)}")


def example(path):
    return os.path.join(TOP, "examples", path)


class Folder(unittest.TestCase):
    """A test with a folder for its files, in which the scripts run if `at` names no other."""

    maxDiff = None

    def setUp(self):
        folder = tempfile.TemporaryDirectory()
        self.addCleanup(folder.cleanup)
        self.folder = self.at = folder.name
        self.put("lattice.toml", LATTICE)

    def put(self, name, text):
        with open(self.path(name), "w", encoding="utf-8") as file:
            file.write(text)
        return name

    def path(self, name):
        return os.path.join(self.folder, name)

    def held(self, name):
        with open(self.path(name), encoding="utf-8") as file:
            return file.read()

    def call(self, *words):
        return subprocess.run(words, cwd=self.at, capture_output=True, text=True, check=False, stdin=subprocess.DEVNULL)

    def script(self, name, *words):
        """A script's status, lines on standard output and lines on standard error."""
        ran = self.call(os.path.join(TOP, "flow", name), *words)
        return ran.returncode, ran.stdout.splitlines(), ran.stderr.splitlines()

    def done(self, name, *words):
        """The lines of a script that is to end with 0 and is to say nothing on standard error."""
        status, lines, errors = self.script(name, *words)
        self.assertEqual((status, errors), (0, []))
        return lines

    def program(self, *words):
        ran = self.call(PROGRAM, *words)
        self.assertEqual((ran.returncode, ran.stderr), (0, ""))
        return ran.stdout.splitlines()

    def silent(self, *words):
        """A tool that is to have nothing to say."""
        ran = self.call(*words)
        self.assertEqual((ran.returncode, ran.stdout + ran.stderr), (0, ""), " ".join(words))
