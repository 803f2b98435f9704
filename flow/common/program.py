"""The program, other tools, and how a script ends that can't go on."""
import os
import shutil
import subprocess
import sys

TOP = os.path.dirname(os.path.dirname(os.path.dirname(os.path.realpath(__file__))))
PROGRAM = os.environ.get("SAPPER") or f"{TOP}/sapper"


class Stop(Exception):
    """A line for standard error, with which a script ends."""

    def __init__(self, line, status=1):
        super().__init__(line)
        self.status = status


def called(*words):
    """A call of the program: its status and what it writes."""
    if not shutil.which(PROGRAM):
        raise Stop(f"there is no program {PROGRAM}: ./demo builds it, or SAPPER names it", 2)
    return subprocess.run([PROGRAM, *words], capture_output=True, text=True, check=False)


def told(*words):
    """What the program writes on standard output; stops with its own line and status if it ends with another status than 0."""
    ran = called(*words)
    if ran.returncode:
        raise Stop(ran.stderr.strip(), ran.returncode)
    return ran.stdout


def said(*words, stdin=None):
    """What another tool writes; stops if it fails."""
    ran = subprocess.run(words, stdout=subprocess.PIPE, stderr=subprocess.STDOUT, stdin=stdin, text=True, check=False)
    if ran.returncode:
        raise Stop(f"{' '.join(words)}: status {ran.returncode}\n{ran.stdout[-3000:]}")
    return ran.stdout


def missing(*tools):
    """The tools that the machine lacks."""
    return [tool for tool in tools if not shutil.which(tool)]


def read_bytes(path):
    try:
        with open(path, "rb") as file:
            return file.read()
    except OSError as fault:
        raise Stop(f"{path}: {fault.strerror}", 6) from fault


def read(path):
    try:
        with open(path, encoding="utf-8") as file:
            return file.read()
    except (OSError, UnicodeDecodeError) as fault:
        raise Stop(f"{path}: {getattr(fault, 'strerror', None) or 'no text'}", 6) from fault


def read_design(path):
    """A design's text, a character for each byte: columns count bytes, and a comment may have any."""
    return read_bytes(path).decode("latin-1")


def write(path, text):
    try:
        with open(path, "w", encoding="utf-8") as file:
            file.write(text)
    except OSError as fault:
        raise Stop(f"{path}: {fault.strerror}", 6) from fault


def spare(paths, files):
    """Stops where one of the paths that are to be written is a file that is read."""
    for path in paths:
        for file in files:
            if os.path.realpath(path) == os.path.realpath(file) or os.path.exists(path) and os.path.exists(file) and os.path.samefile(path, file):
                raise Stop(f"{path} is a file that is read: take another name", 2)


def ended(main):
    """Runs a script's `main` and ends with its status; a Stop is one line on standard error."""
    try:
        sys.exit(main())
    except Stop as stop:
        print(f"{os.path.basename(sys.argv[0])}: {stop}", file=sys.stderr)
        sys.exit(stop.status)
    except BrokenPipeError:
        os.dup2(os.open(os.devnull, os.O_WRONLY), sys.stdout.fileno())
        sys.exit(1)
