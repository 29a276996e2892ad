"""What the tests share: how a command is run, what it printed, and the files that it is given."""
import os
import shutil
import signal
import subprocess
import sys
import tempfile
import unittest

from bbeq_tools.program import BUILT, TOLD, built_here

HERE = os.path.dirname(os.path.dirname(os.path.realpath(__file__)))
TOP = os.path.dirname(HERE)
BBEQ = os.path.realpath(os.environ.get("BBEQ") or built_here()[1] or BUILT)
WAS_TOLD = TOLD in os.environ
os.environ[TOLD] = "1"  # Else each command would say that the program is not proved.
DESIGNS = os.path.join(HERE, "designs")
REFUSED = os.path.join(DESIGNS, "refused")
WARNED = os.path.join(DESIGNS, "warned")
LIMIT = int(os.environ.get("CHECK_SECONDS", "300"))  # Seconds for one command.
SMALL_PROOF = """rung expand error
vector 0
clause 0 1
clause 1 -1 2
clause 2 -2
step 3 0 1/1 2/2
verdict error
"""


class Tries(unittest.TestCase):
    """Tries of commands, in a folder that each method has for itself. A try that fails is noted,
    and those after it go on."""

    part = None  # The name by which `check` runs the class.
    needs = ("yosys", "iverilog", "vvp")
    needs_program = True
    shows = False  # Whether a line is printed for each try.

    def setUp(self):
        missing = [tool for tool in self.needs if not shutil.which(tool)]
        if missing or self.needs_program and not os.access(BBEQ, os.X_OK):
            self.skipTest(f"{', '.join(missing) or BBEQ} is not there")
        place = tempfile.TemporaryDirectory(prefix="check")
        self.addCleanup(place.cleanup)
        self.folder, self.passed, self.failed = place.name, 0, []

    def note(self, name, right, why=""):
        if right:
            self.passed += 1
        else:
            self.failed.append(f"{name}: {why}" if why else name)
        if self.shows:
            print(f"ok    {name}" if right else f"FAIL  {self.failed[-1]}", flush=True)

    def tearDown(self):
        if self.failed:
            self.fail("\n".join([f"{len(self.failed)} of "
                                 f"{self.passed + len(self.failed)} tries failed:", *self.failed]))


class Done:
    """A command's status, standard output and standard error."""

    def __init__(self, status, out, err):
        self.status, self.out, self.err = status, out, err

    def why(self):
        return f"status {self.status}; {(self.err + self.out).strip()[:300]}"


def run(words, folder=None, text=None, env=None):
    try:
        done = subprocess.run(words, cwd=folder, input=text, capture_output=True, text=True,
                              errors="replace", timeout=LIMIT, check=False, env=env,
                              stdin=subprocess.DEVNULL if text is None else None)
    except subprocess.TimeoutExpired:
        return Done("none in time", "", "")
    return Done(done.returncode, done.stdout, done.stderr)


def take_signals():
    """Takes the signals that a caller may ignore, as nohup does, and a shell for what it does not
    wait for."""
    for number in (signal.SIGINT, signal.SIGHUP):
        signal.signal(number, signal.SIG_DFL)


def bare_path(folder):
    """A PATH that has nothing but what starts a command; python3 may be a shim there."""
    os.makedirs(folder, exist_ok=True)
    for name, target in (("python3", sys.executable), ("readlink", shutil.which("readlink"))):
        os.symlink(target, os.path.join(folder, name))
    return folder


def script(name):
    return os.path.join(HERE, name)


def bbeq(*words):
    return run([BBEQ, *words])


def write(folder, name, text):
    path = os.path.join(folder, name)
    with open(path, "w", encoding="latin-1") as file:
        file.write(text)
    return path


def read(path):
    with open(path, encoding="latin-1") as file:
        return file.read()


def example(name, *parts):
    return os.path.join(TOP, "examples", name, *parts)


def designs_in(folder):
    return [os.path.join(folder, name)
            for name in sorted(os.listdir(folder)) if name.endswith((".v", ".sv"))]


def is_told(done, name):
    """One line on standard error, nothing else, and a status that is not 0."""
    lines = done.err.splitlines()
    return (done.status not in (0, "none in time") and not done.out and len(lines) == 1
            and lines[0].startswith(f"{name}: "))
