"""Runs of the program on two texts of which some outputs alone are compared, at some vectors
alone."""
import os
import sys
import time

from bbeq_tools.cli import Fault
from bbeq_tools.report.cut import Cut
from bbeq_tools.report.reports import is_verdict
from bbeq_tools.runs.climbs import value_of, wants_clauses, without
from bbeq_tools.runs.timed import Started
from bbeq_tools.runs.ways import FIRST_CLAUSES
from bbeq_tools.verilog.language import bit_text, read_modules, top_of, written
from bbeq_tools.verilog.values import Design

TOLD_EACH = 4  # Seconds between lines of progress.
CARE, AT = "bbeq.care", "bbeq.at"
MOST_BITS = 64  # Of a number in the text.


class Restricted:
    """The two texts, their designs, and the runs on parts of them. A vector has a bit for each of
    `names`, the inputs and registers by kind and text in the order of a report."""

    def __init__(self, words, folder, program):
        self.words, self.folder, self.program = words, folder, program
        self.files = [words.specification, words.implementation]
        self.care = {("output", words.care)} if words.care else set()
        self.sides, self.designs = [], []
        for path, name in zip(self.files, (words.top_spec, words.top_impl)):
            text, modules = read_modules(path)
            top = top_of(path, modules, name)
            self.sides.append(Cut(path, text, modules, top))
            self.designs.append(Design(modules, top))
        self.names = self.designs[0].inputs
        self.opened = self.count = 0
        self.began = self.told = time.monotonic()

    def all(self):
        spec, implementation = ({*(("output", bit_text(*bit)) for bit in side.outputs),
                                 *(("next", bit_text(*bit)) for bit in side.registers)}
                                for side in self.sides)
        if spec - self.care != implementation or not self.care <= spec:
            raise Fault("the two texts have other outputs or registers; bbeq names the "
                        "first that differs")
        # The output of a register is the register, which is one in both.
        registers = {text for kind, text in implementation if kind == "next"}
        return sorted(item
                      for item in implementation if item[0] == "next" or item[1] not in registers)

    def report(self, words, files):
        """The lines that the program prints; meanwhile what goes on is said from time to time."""
        self.count += 1
        run = Started([self.program, *words, "--", *files])
        try:
            limit = TOLD_EACH
            while not run.wait(limit):
                limit += TOLD_EACH
                self.tell(f"run {self.count} takes {time.monotonic() - run.began:.0f} s so far")
        finally:
            run.end()
        with run.output:
            lines = run.printed().decode("latin-1").splitlines()
        return lines or [f"status {run.status}"]

    def tell(self, what):
        now = time.monotonic()
        if now - self.told >= TOLD_EACH:
            self.told = now
            print(f"why: {now - self.began:.0f} s: {what}", file=sys.stderr, flush=True)

    def proof(self, kept):
        """Vectors at which no contents are right together, as `expand` finds them, or none."""
        is_whole = len(kept) == len(self.all())
        files = self.files if is_whole else self.written(kept)
        names = self.names if is_whole else self.names_in(files[0])
        words = [*self.tops(), *self.care_words(), *self.expand_words(), "--proof"]
        few = [] if value_of(words, "clauses", None) else [f"--clauses={FIRST_CLAUSES}"]
        lines = self.report([*words, *few], files)
        if few and wants_clauses("\n".join(lines)):
            lines = self.report(words, files)
        found = [dict(zip(names, line[7:])) for line in lines if line.startswith("vector ")]
        return [{name: bits[name] for name in self.names} for bits in found]

    def names_in(self, path):
        """The names of a specification that was cut, by those that it had before."""
        _, modules = read_modules(path)
        known = {text: (kind, text) for kind, text in self.names}
        return [known[text] for _, text in Design(modules, modules[self.sides[0].top.name]).inputs]

    def tops(self):
        return [f"--top-spec={self.sides[0].top.name}", f"--top-impl={self.sides[1].top.name}"]

    def care_words(self):
        return [f"--care={name}" for _, name in self.care]

    def expand_words(self):
        return ["--from=expand", *without(without([word for word in self.words.others
                                                   if word != "--proof"], "from"), "to")]

    def written(self, kept, vectors=None):
        """The two texts with these outputs, and the one that is 1 at these vectors."""
        files = []
        for name, side in zip(("spec.v", "impl.v"), self.sides):
            is_spec = side is self.sides[0]
            extra = self.care_lines(vectors) if is_spec and vectors is not None else None
            files.append(os.path.join(self.folder, name))
            with open(files[-1], "w", encoding="latin-1") as file:
                file.write(side.with_outputs({*kept, *self.care} if is_spec and vectors is None
                                             else set(kept), extra))
        return files

    def verdict(self, kept, vectors=None):
        """The verdict on these outputs and next states, at these vectors or at all."""
        words = [*self.tops(), *(self.care_words() if vectors is None else [f"--care={CARE}"]),
                 *(self.words.others if vectors is None else self.expand_words())]
        lines = self.report(words, self.written(kept, vectors))
        found = next((line for line in lines if is_verdict(line)), None)
        if not found:
            raise Fault(f"bbeq says `{lines[-1]}` of the texts with {len(kept)} outputs")
        self.opened += found == "verdict open"
        if self.words.runs:
            names = ", ".join(f"{kind} {text}" for kind, text in kept)
            places = "" if vectors is None else f" at {len(vectors)} vectors"
            print(f"{len(kept)} outputs{places}: {found}; bbeq {' '.join(words)}; {names}",
                  flush=True)
        self.tell(f"{self.count} runs, {len(kept)} outputs"
                  + ("" if vectors is None else f", {len(vectors)} vectors"))
        return found.split()[1]

    def care_lines(self, vectors):
        """An output that is 1 at these vectors alone, and where the care output is."""
        lines = []
        for number, vector in enumerate(vectors):
            parts = [self.is_at(vector, self.names[at:at + MOST_BITS])
                     for at in range(0, len(self.names), MOST_BITS)] or ["1'b1"]
            lines.append(f"wire {written(f'{AT}.{number}')}= {' & '.join(parts)};")
        is_one = " | ".join(written(f"{AT}.{number}") for number in range(len(vectors)))
        care = [f"{own_bit(self.sides[0].top, name)} & " for _, name in self.care]
        return written(CARE), [*lines, f"assign {written(CARE)}= {''.join(care)}({is_one});"]

    def is_at(self, vector, names):
        bits = ", ".join(own_bit(self.sides[0].top, text) for _, text in names)
        digits = "".join(vector[name] for name in names)
        return f"({{{bits}}} == {len(names)}'b{digits})"


def own_bit(top, text):
    """A bit of the top as it is written, from its text."""
    for net in top.nets.values():
        for index in net.indices() if text.startswith(net.name) else ():
            if bit_text(net.name, index) == text:
                return bit_text(written(net.name), index)
    raise Fault(f"there is no bit {text} in {top.name}")
