"""Tries every command of contrib, on designs, examples and bad input, and every command that a
document shows, and compares the program with what `evaluate` finds. It needs more than the proofs
and tests of `rt ci` do, so it is no part of them."""
import argparse
import os
import re
import shutil
import subprocess
import sys
import textwrap
import time
import unittest
from concurrent.futures import ThreadPoolExecutor

from bbeq_tools.cli import WRONG_WORDS, Fault, run_script
from bbeq_tools.program import kind_of
from bbeq_tools.words import Words
from tests.tries import BBEQ, HERE, WAS_TOLD, Tries

TEXT = """
Without a part all are tried. Each line is a try; the last is `N passed, M failed`. The status is 0
where none failed.

Needs yosys, iverilog and python3 (Debian: apt-get install yosys iverilog python3; `check reports`
and `check rows` need python3 alone), and the program: $BBEQ, or the one that ./bbeq runs. Each
command has 300 seconds, or $CHECK_SECONDS. `reports` compares the program with `evaluate` on 300
drawn pairs, or on $CHECK_PAIRS, and so does `filled` the text of --fill; `ordered` draws 100, or
$CHECK_ORDERED; `program` damages 1,000, or $CHECK_MUTATED. `refutations` compares --rup with a
plain checker on 2,000 drawn formulas, or on $CHECK_FORMULAS, and on proofs by cadical where that
is installed; `refuse` needs cc and nm, and `made` takes rt of the Rattle kit for what the crate
itself makes. `parts` compares what is joined of parts with the program on 40 drawn pairs, or on
$CHECK_PARTS, and `run` asks the hosts that the file $CHECK_HOSTS names, where there is one.
`words` compares 300 drawn expressions, or $CHECK_WORDS, with what iverilog makes of them, and
`simulated` what `parts` writes of 10 drawn pairs, or of $CHECK_SIMULATED, as yosys reads it, and
`events` runs of 60 drawn pairs, or $CHECK_EVENTS, with what bbeq says of them, and `filled_events`
those of 300 filled ones, or $CHECK_FILLED_EVENTS, with the specification. `invariants` tries
each event of 200 drawn specifications, or $CHECK_INVARIANTS, and needs python3 alone. With
$YOSYS_TESTS, a folder with tests of yosys' sources, such as tests/simple, these are tried as well.
`page_shown` opens pages in headless chromium where that is installed. `units` are the tests of
single modules, and `style` asks ruff, or pycodestyle and pyflakes, and mypy."""
UNITS = "units"
SLOW = ("cells", "limits", "made", "refuse")  # Parts of minutes, which --quick leaves out.
# The longest of the others, which begin where several go at once.
LONG = ("page_shown", "filled_events", "ordered", "gates", "hostile", "filled", "documents", "page",
        "bad", "ended")
QUICK = {"CHECK_PAIRS": "60", "CHECK_ORDERED": "10", "CHECK_MUTATED": "100",
         "CHECK_FORMULAS": "200", "CHECK_PARTS": "6", "CHECK_WORDS": "50", "CHECK_SIMULATED": "3",
         "CHECK_EVENTS": "20", "CHECK_FILLED_EVENTS": "20", "CHECK_INVARIANTS": "40"}


def classes_in(suite):
    """The classes of the tests of a suite, each once."""
    found = {}
    for test in suite:
        if isinstance(test, unittest.TestSuite):
            found.update(dict.fromkeys(classes_in(test)))
        else:
            found[type(test)] = None
    return list(found)


def parts():
    """The classes by the names of their parts; those without a part are units."""
    found = {}
    for test in classes_in(unittest.defaultTestLoader.discover(os.path.join(HERE, "tests"),
                                                               top_level_dir=HERE)):
        found.setdefault(getattr(test, "part", None) or UNITS, []).append(test)
    return found


class Counted(unittest.TestResult):
    """Counts tries: those that a test notes, and each test that notes none."""

    passed = wrong = 0

    def addSuccess(self, test):
        if not isinstance(test, Tries):
            self.passed += 1
            print(f"ok    {test.id().partition('.')[2]}", flush=True)

    def addFailure(self, test, err):
        if not getattr(test, "failed", ()):  # What is noted is counted as it stands there.
            self.addError(test, err)

    def addError(self, test, err):
        if issubclass(err[0], SystemExit):  # A signal ends the whole of it.
            raise err[1]
        self.wrong += 1
        print(f"FAIL  {test.id().partition('.')[2]}: {self._exc_info_to_string(err, test)}",
              flush=True)

    def addSkip(self, test, reason):
        print(f"left  {test.id().partition('.')[2]}: {reason}", flush=True)

    def stopTest(self, test):
        super().stopTest(test)
        self.passed += getattr(test, "passed", 0)
        self.wrong += len(getattr(test, "failed", ()))


def line_of(name, passed, wrong, start):
    return f"--    {name}: {passed} passed, {wrong} failed, {time.monotonic() - start:.0f} s"


def run_here(name, tests):
    """Runs a part; how many tries passed, and how many failed."""
    start, result = time.monotonic(), Counted()
    unittest.TestSuite(map(unittest.defaultTestLoader.loadTestsFromTestCase, tests)).run(result)
    print(line_of(name, result.passed, result.wrong, start), flush=True)
    return result.passed, result.wrong


def run_apart(name):
    """Runs a part in a process of its own, and prints what it printed when it ends."""
    start = time.monotonic()
    done = subprocess.run([os.path.join(HERE, "check"), name],
                          stdout=subprocess.PIPE, text=True, errors="replace", check=False)
    lines = done.stdout.splitlines()
    counts = re.fullmatch(r"(\d+) passed, (\d+) failed", lines[-1] if lines else "")
    passed, wrong = map(int, counts.groups()) if counts else (0, 1)
    print("\n".join([*lines[:-2], line_of(name, passed, wrong, start)]), flush=True)
    return passed, wrong


def parse_words(names):
    parser = Words(prog="check", usage="check [--quick] [--jobs N] [PART ...]", description=__doc__,
                   epilog="\n".join(textwrap.wrap(f"parts: {', '.join(names)}.", 100)) + TEXT,
                   formatter_class=argparse.RawDescriptionHelpFormatter)
    parser.add_argument("parts", metavar="PART", nargs="*", help="the parts to try (otherwise all)")
    parser.add_argument("--quick", action="store_true", help="fewer drawn texts, on all "
                        "processors, without " + ", ".join(SLOW))
    parser.add_argument("--jobs", type=int, metavar="N",
                        help="how many parts go at once (otherwise one)")
    words = parser.parse_args()
    unknown = [name for name in words.parts if name not in names]
    if unknown:
        print(f"check: there is no part {unknown[0]}; the parts are {', '.join(names)}",
              file=sys.stderr)
        sys.exit(WRONG_WORDS)
    return words


def check_needs(tests):
    """Tells what is not there and has to be."""
    tools = dict.fromkeys(tool for test in tests for tool in getattr(test, "needs", ()))
    missing = [tool for tool in tools if not shutil.which(tool)]
    if missing:
        raise Fault(f"{' '.join(missing)} not installed (Debian: apt-get install yosys iverilog)")
    wants = any(getattr(test, "needs_program", False) for test in tests)
    if wants and not os.access(BBEQ, os.X_OK):
        raise Fault("the program is not there; run ./bbeq once, or set BBEQ")
    if wants and kind_of(BBEQ) == "unproved" and not WAS_TOLD:
        print(f"check: NOT PROVED: {BBEQ} is compiled without its proofs; ./prove proves it",
              file=sys.stderr)
    os.environ["BBEQ"] = BBEQ


def command():
    if "--quick" in sys.argv:
        os.environ.update({name: value for name, value in QUICK.items() if name not in os.environ})
    found = parts()
    words = parse_words(found)
    chosen = words.parts or [name for name in found if not (words.quick and name in SLOW)]
    check_needs([test for name in chosen for test in found[name]])
    Tries.shows = True
    jobs = words.jobs or (os.cpu_count() if words.quick else 1)
    if jobs > 1:
        with ThreadPoolExecutor(jobs) as pool:
            counts = list(pool.map(run_apart, sorted(chosen, key=lambda name: name not in LONG)))
    else:
        counts = [run_here(name, found[name]) for name in chosen]
    passed, wrong = (sum(numbers) for numbers in zip(*counts))
    print(f"{passed} passed, {wrong} failed")
    sys.exit(1 if wrong else 0)


def main():
    run_script("check", command)
