"""Logs of `rt ci` with the times of its processes: lines `minutes: ..` after those that rt
wrote."""
import re
from dataclasses import dataclass

from gate_tools.kinds import PROOF, Work

LINE = re.compile(
    r"minutes: (\S+) (\w+) (-?\d+) took ([\d.]+) s, (\d+) MB, from ([\d.]+) to ([\d.]+)$")
WHOLE = re.compile(
    r"minutes: rt (.*) took ([\d.]+) s by the clock and ([\d.]+) s of (\d+) processors$")
NONE = "-"


@dataclass
class Taken:
    """Processor seconds, peak memory in megabytes, and when it began and ended by the clock."""

    seconds: float = 0.0
    peak: int = 0
    began: float = float("inf")
    ended: float = 0.0

    def add(self, other):
        self.seconds += other.seconds
        self.peak = max(self.peak, other.peak)
        self.began, self.ended = min(self.began, other.began), max(self.ended, other.ended)


@dataclass
class Gate:
    """A run of the gate: what was called, clock and processor seconds, and what each work took."""

    words: str
    clock: float
    seconds: float
    processors: int
    works: dict[Work, Taken]
    last: str

    def of(self, crate, kind):
        total = Taken()
        for work, taken in self.works.items():
            if (work.crate, work.kind) == (crate, kind):
                total.add(taken)
        return total

    def crates(self):
        return sorted({work.crate for work in self.works if work.crate != NONE})

    def of_kind(self, kind):
        return sum(taken.seconds for work, taken in self.works.items() if work.kind == kind)


def lines_of(works):
    """The lines for what each work took."""
    for work, processes in sorted(works.items(),
                                  key=lambda it: (it[0].crate, it[0].kind, it[0].edit)):
        seconds = sum(process.seconds for process in processes)
        peak = max(process.peak for process in processes) // 1_000_000
        began = min(process.began for process in processes)
        ended = max(process.ended for process in processes)
        yield (f"minutes: {work.crate or NONE} {work.kind} {work.edit} took {seconds:.1f} s, "
               f"{peak} MB, from {began:.0f} to {ended:.0f}")


def read_gate(lines):
    """The gate of a log, or None where its times are not in it."""
    works, whole, last = {}, None, ""
    for line in map(str.rstrip, lines):
        found = LINE.match(line)
        if found:
            crate, kind, edit, seconds, peak, began, ended = found.groups()
            works[Work(crate, kind, int(edit))] = Taken(float(seconds), int(peak), float(began),
                                                        float(ended))
        elif WHOLE.match(line):
            whole = WHOLE.match(line).groups()
        elif re.match(r"\d+ passed, \d+ failed", line):
            last = line
    if whole is None:
        return None
    words, clock, seconds, processors = whole
    return Gate(words, float(clock), float(seconds), int(processors), works, last)


def longest_chain(gate, below):
    """The crates, lowest first, whose proofs have to follow each other and take longest, with their
    sum."""
    seconds = {crate: gate.of(crate, PROOF).seconds for crate in below}
    best = {}

    def chain(crate):
        if crate not in best:
            longest = max((chain(it) for it in below[crate] if it in below), key=lambda it: it[0],
                          default=(0.0, ()))
            best[crate] = (longest[0] + seconds[crate], (*longest[1], crate))
        return best[crate]

    return max(map(chain, below), key=lambda it: it[0])
