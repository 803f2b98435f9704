"""What a program takes: processor seconds, seconds and the most memory.

A process that is started from a large one is told to have taken the memory of that one at least. So a starter, which begins while this process is small and stays
so, starts the programs."""

import json
import os
import sys
import time
from typing import NamedTuple


class Took(NamedTuple):
    """Seconds of processors, seconds, and the most memory in KiB."""

    processor: float
    passed: float
    memory: int


def started(words, out, folder):
    """The status of a program that is started in a folder, and what it took; its channel 1 goes to a file."""
    start = time.perf_counter()
    os.chdir(folder)
    actions = [(os.POSIX_SPAWN_OPEN, 1, out, os.O_WRONLY | os.O_CREAT | os.O_TRUNC, 0o600)]
    child = os.posix_spawnp(words[0], words, os.environ, file_actions=actions)
    _, status, used = os.wait4(child, 0)
    return os.waitstatus_to_exitcode(status), used.ru_utime + used.ru_stime, time.perf_counter() - start, used.ru_maxrss


def serve(asked, answered):
    """Starts a program for each line, and answers with what it took."""
    for line in asked:
        answered.write(json.dumps(started(*json.loads(line))) + "\n")
        answered.flush()


class Starter:
    def __init__(self):
        asked, ask = os.pipe()
        answer, answered = os.pipe()
        if os.fork() == 0:
            os.close(ask)
            os.close(answer)
            serve(os.fdopen(asked), os.fdopen(answered, "w"))
            os._exit(0)
        os.close(asked)
        os.close(answered)
        self.ask, self.answer = os.fdopen(ask, "w"), os.fdopen(answer)

    def run(self, words, out=os.devnull, folder=None):
        """What a program takes that is to end with 0: memory at least that of a small process of Python."""
        self.ask.write(json.dumps([words, out, folder or os.getcwd()]) + "\n")
        self.ask.flush()
        status, *took = json.loads(self.answer.readline())
        if status:
            sys.exit(f"unexpected: status {status} of {' '.join(words)}")
        return Took(*took)
