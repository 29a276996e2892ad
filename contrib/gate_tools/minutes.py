"""Runs the gate and keeps what each of its checks takes, or prints what is kept of one run or of
two.

The table has the processor minutes of each crate: its proof, its tests, the seed of its edits (the
check that they begin with), the edits, and runs of its program or tests; then the greatest memory
of one process. Below it are the sums, the longest chain of proofs that wait for each other, and the
last line of the gate. With --run the status is that of `rt ci`."""
import argparse
import os
import resource
import sys
import time

from bbeq_tools.cli import Fault, run_script
from bbeq_tools.words import Words
from gate_tools.gate_log import lines_of, longest_chain, read_gate
from gate_tools.kinds import EDITS, KINDS, PROOF, RUN, SEED, TESTS, by_work
from gate_tools.processes import watched
from gate_tools.tried import last_tried

TOP = os.path.dirname(os.path.dirname(os.path.dirname(os.path.realpath(__file__))))
SHOWN = (PROOF, TESTS, SEED, EDITS, RUN)


def parse_words():
    parser = Words(prog="minutes", description=__doc__,
                   formatter_class=argparse.RawDescriptionHelpFormatter)
    parser.add_argument("log", metavar="LOG", nargs="?", help="the log of a gate")
    parser.add_argument("after", metavar="LOG", nargs="?", help="that of another, to compare with")
    parser.add_argument("--run", action="store_true",
                        help="run the gate first, and write its log to LOG")
    parser.add_argument("--anew", action="store_true", help="with --run: prove all from nothing")
    parser.add_argument("--edits", action="store_true",
                        help="print when each wrong body was last tried")
    words = parser.parse_args()
    if not words.edits and words.log is None or words.run and words.after:
        parser.error("give one log, or two to compare")
    return words


def below_of(top):
    """The libraries of the repository on which each crate depends directly."""
    with open(os.path.join(top, "crates.txt"), encoding="utf-8") as file:
        lines = [line.split("#")[0] for line in file]
    return {name.split()[0]: rest.split()
            for name, _, rest in (it.partition(":") for it in lines) if name.strip()}


def run_gate(path, anew):
    """Runs `rt ci` at the top; its lines go to standard output and to the log, the times after
    them."""
    words = ["rt", "ci", *["--anew"] * anew]
    began = time.monotonic()
    with open(path, "w", encoding="utf-8") as log:
        def keep(line):
            print(line, file=log, flush=True)
            print(line, flush=True)

        status, watch = watched(words, keep, cwd=TOP)
        used = resource.getrusage(resource.RUSAGE_CHILDREN)
        for line in lines_of(by_work(watch)):
            print(line, file=log)
        print(f"minutes: {' '.join(words)} took {time.monotonic() - began:.1f} s by the clock and "
              f"{used.ru_utime + used.ru_stime:.1f} s of {len(os.sched_getaffinity(0))} processors",
              file=log)
    return status


def read(path):
    with open(path, encoding="utf-8", errors="replace") as file:
        gate = read_gate(file)
    if gate is None:
        raise Fault(f"{path}: no times are in this log: `minutes --run LOG` writes them")
    return gate


def minutes(seconds):
    return f"{seconds / 60:6.1f}" if seconds >= 3 else "      "


def print_table(gate):
    rows = []
    for crate in gate.crates():
        parts = [gate.of(crate, kind) for kind in SHOWN]
        rows.append((sum(it.seconds for it in parts), crate, parts))
    print(f"{'crate':16}" + "".join(f"{kind:>7}" for kind in SHOWN) + f"{'sum':>7}{'MB':>7}")
    for total, crate, parts in sorted(rows, reverse=True):
        columns = "".join(f" {minutes(it.seconds)}" for it in parts)
        print(f"{crate:16}{columns} {minutes(total)}{max(it.peak for it in parts):7}")
    columns = "".join(f" {minutes(gate.of_kind(kind))}" for kind in SHOWN)
    print(f"{'all':16}{columns} {minutes(sum(map(gate.of_kind, KINDS)))}")


def print_comparison(before, after):
    print(f"{'crate':16}{'before':>8}{'after':>8}{'change':>8}")
    crates = sorted({*before.crates(), *after.crates()})
    for crate in crates:
        one, other = (sum(it.of(crate, kind).seconds for kind in SHOWN) for it in (before, after))
        print(f"{crate:16}{one / 60:8.1f}{other / 60:8.1f}{(other - one) / 60:+8.1f}")
    for kind in KINDS:
        one, other = before.of_kind(kind), after.of_kind(kind)
        print(f"{'all ' + kind:16}{one / 60:8.1f}{other / 60:8.1f}{(other - one) / 60:+8.1f}")


def print_summary(gate):
    seconds, chain = longest_chain(gate, below_of(TOP))
    print(f"longest chain: {seconds / 60:.1f} minutes: {' '.join(chain)}")
    print(f"rt {gate.words}: {gate.seconds / 60:.1f} processor minutes, {gate.clock / 60:.1f} by "
          f"the clock on {gate.processors} processors; {gate.last or 'it did not end'}")


def command():
    words = parse_words()
    if words.edits:
        for line in last_tried(TOP):
            print(line)
        return
    status = run_gate(words.log, words.anew) if words.run else 0
    gate = read(words.log)
    if words.after:
        other = read(words.after)
        print_comparison(gate, other)
        print_summary(gate)
        print_summary(other)
        return
    print_table(gate)
    print_summary(gate)
    sys.exit(status)


def main():
    run_script("minutes", command)
