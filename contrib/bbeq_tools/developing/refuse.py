"""Refuses the allocations of a run, one in each run.

The program is run undisturbed first, and its allocations are counted. Then each is refused in a run
of its own: the status has to be 5 with nothing written, or the run's own status and bytes. Where a
run goes on without memory the function is named that wanted it. With --limits the address space is
limited instead, from what the program starts with to what the run is content with."""
import resource
import subprocess
import sys
import tempfile

from bbeq_tools.cli import Fault, run_script
from bbeq_tools.developing.allocations import Runs
from bbeq_tools.words import Words

MOST = 1000  # Runs, where not all are asked for.
PAGE = 4096


def parse_words():
    parser = Words(prog="refuse", description=__doc__.split("\n\n", maxsplit=1)[0])
    parser.add_argument("program", metavar="PROGRAM", help="the program")
    parser.add_argument("--all", action="store_true",
                        help=f"each allocation; without it {MOST} runs at most, evenly spread")
    parser.add_argument("--from", dest="first", type=int, default=1, metavar="N",
                        help="begin at allocation number N (default 1)")
    parser.add_argument("--step", type=int, metavar="K", help="each K-th allocation")
    parser.add_argument("--onwards", action="store_true",
                        help="refuse the later ones as well, as a machine without memory does")
    parser.add_argument("--limits", type=int, metavar="N", help="no allocation, but so many limits "
                        "of the address space, as ulimit -v sets")
    parser.add_argument("words", nargs="*", metavar="WORDS", help="the program's words, behind --")
    at = sys.argv.index("--") if "--" in sys.argv else len(sys.argv)
    words = parser.parse_args(sys.argv[1:at])
    if at == len(sys.argv):
        raise Fault("the program's words stand behind -- (refuse --help lists the words)")
    words.words = sys.argv[at + 1:]
    return words


class Answers:
    """How the disturbed runs ended."""

    def __init__(self, own):
        self.own, self.wanting, self.others, self.counts = own, {}, [], {"5": 0, "own": 0}

    def add(self, what, answer, wanting=None):
        if answer == (5, b""):
            self.counts["5"] += 1
        elif answer == self.own:
            self.counts["own"] += 1
            self.wanting.setdefault(wanting and wanting(), []).append(what)
        else:
            self.others.append(f"{what}: status {answer[0]}, {answer[1][:60]!r}"
                               + (f", wanted by {wanting()}" if wanting else ""))

    def tell(self, head):
        print(f"{head}: {self.counts['5']} answers 5, {self.counts['own']} the run's own, "
              f"{len(self.others)} others")
        for name, found in sorted(self.wanting.items()) if None not in self.wanting else ():
            print(f"own answer without the memory that {name} wanted: {len(found)} times, "
                  f"first at {found[0]}")
        if self.others:
            raise Fault("\n".join(self.others))


def sweep(runs, words):
    answers = Answers(runs.run(words.words))
    count = runs.count()
    numbers = range(words.first, count + 1,
                    words.step or (1 if words.all else max(1, count // MOST)))
    for number in numbers:
        answers.add(f"allocation {number}", runs.run(words.words, number, words.onwards),
                    runs.wanting)
    answers.tell(f"{count} allocations, {len(numbers)} refused")


def limited(program, words, pages=None):
    """Status and bytes of a run within so many pages of address space, or within all that there
    is."""
    size = pages * PAGE if pages else resource.RLIM_INFINITY
    done = subprocess.run([program, *words], capture_output=True, check=False,
                          preexec_fn=lambda: resource.setrlimit(resource.RLIMIT_AS, (size, size)))
    return done.returncode, done.stdout


def least(holds, low, high):
    """The least number in between of which this holds, where it holds of all that are greater."""
    while low < high:
        middle = (low + high) // 2
        low, high = (low, middle) if holds(middle) else (middle + 1, high)
    return low


def try_limits(program, words):
    """Below the least limit the system does not start the program."""
    own = limited(program, words.words)
    most = 1 << 24  # 64 GB.
    starts = least(lambda pages: limited(program, [], pages)[0] in (2, 5), 1, most)
    enough = least(lambda pages: limited(program, words.words, pages) == own, starts, most)
    answers = Answers(own)
    for number in range(words.limits):
        pages = starts + (enough - starts) * number // max(1, words.limits - 1)
        answers.add(f"{pages * PAGE // 1024} kB", limited(program, words.words, pages))
    answers.tell(f"{words.limits} limits of address space from {starts * PAGE // 1024} to "
                 f"{enough * PAGE // 1024} kB")


def command():
    words = parse_words()
    with tempfile.TemporaryDirectory(prefix="refuse") as folder:
        runs = Runs(folder, words.program)
        if words.limits:
            try_limits(runs.program, words)
        else:
            sweep(runs, words)


def main():
    run_script("refuse", command)
