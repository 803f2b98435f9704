"""Calls of a command that writes the file OUT, and the cases of such a command beside its model."""

import os
import resource
import shutil
import signal
import subprocess
from collections import Counter

from .compare import Calls
from .lattice import lattice_of

LATTICE_FILE = "lattice.toml"
BEFORE = "what stood there before\n" * 10


class Writing(Calls):
    """Calls over files in the folder."""

    def held(self, name):
        with open(os.path.join(self.folder, name), encoding="latin-1", newline="") as file:
            return file.read()

    def lattice(self, text):
        self.put(LATTICE_FILE, text)
        return lattice_of(text)

    def limited(self, most, *words):
        """The status and the line of a call in which no file may grow beyond a number of bytes."""

        def limit():
            signal.signal(signal.SIGXFSZ, signal.SIG_IGN)
            resource.setrlimit(resource.RLIMIT_FSIZE, (most, most))

        self.counts[words[0]] += 1
        done = subprocess.run([self.program, *words], stderr=subprocess.PIPE, stdout=subprocess.DEVNULL, cwd=self.folder, preexec_fn=limit)
        return done.returncode, done.stderr.decode("latin-1")


def differs(calls, name, case, word):
    """Whether a case differs. The folder of one that does is kept."""
    try:
        case(calls, word)
    except (AssertionError, LookupError, ValueError, FileNotFoundError) as what:
        calls.note(f"what was written can't be read: {what!r}")
    if not calls.differing:
        shutil.rmtree(calls.folder)
        return False
    print(f"DIFFERS: {name}, files in {calls.folder}")
    for what in calls.differing[:20]:
        print(f"  {what}")
    return True


def compared(kind, program, cases, told):
    """Whether one of the cases differs, each a name, what is tried over calls of this kind, and a word for it. Tells these counts."""
    counts = Counter()
    wrong = sum(differs(kind(program, f"{kind.__name__.lower()}_{name}", counts), name, case, word) for name, case, word in cases)
    for what, kinds in told:
        print(f"{what}: " + ", ".join(f"{one} {counts[one]}" for one in kinds))
    print(f"{wrong} of {len(cases)} cases differ" if wrong else f"none of {len(cases)} cases differs")
    return bool(wrong)
