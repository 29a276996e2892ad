"""The tries of `benchmark`: six small pairs, whose answers are those of `evaluate` and of the
program; and programs that answer wrong, which are told."""
import os
import re

from tests.tries import BBEQ, Tries, is_told, read, run, script, write

LYING = """#!/bin/sh
echo "rung expand repair"
echo "verdict {}"
"""


class Benchmark(Tries):
    part = "benchmark"
    needs = ("yosys",)

    def setUp(self):
        super().setUp()
        self.pairs = os.path.join(self.folder, "pairs")
        self.made = run([script("benchmark"), self.pairs, "--small"])

    def sides(self):
        return [line.split()[:2] + [line.split()[3]]
                for line in read(os.path.join(self.pairs, "list")).splitlines()]

    def test_pairs(self):
        self.note("benchmark writes six small pairs",
                  self.made.status == 0 and len(self.sides()) == 6, self.made.why())
        for spec, implementation, due in self.sides():
            paths = [os.path.join(self.pairs, path) for path in (spec, implementation)]
            done = run([script("evaluate"), *paths])
            wanted = "no contents agree" if due == "error" else "some contents agree"
            self.note(f"benchmark: evaluate of {spec.partition('/')[0]}",
                      done.out.startswith(wanted) or "bits in the contents" in done.err
                      or "inputs and registers" in done.err, done.why())
        done = run([script("run"), os.path.join(self.pairs, "list")])
        self.note("benchmark: run takes the list", done.status == 0, done.why())

    def test_measured(self):
        done = run([script("benchmark"), self.pairs, "--measure", BBEQ, BBEQ, "--limit", "10"])
        rows = re.findall(r"^\w+ +(error|repairable) +\d+\+\d+ +\d (expand|ladder) .* \1 by \w+ \w+"
                          r" .* \1 by \w+ \w+$", done.out, re.MULTILINE)
        self.note("benchmark --measure: each pair is decided in both ways",
                  done.status == 0 and len(rows) == 12
                  and done.out.endswith("6 pairs, 0 wrong answers\n"), done.why())
        for verdict, wrong in (("error", 3), ("repairable", 3)):
            program = write(self.folder, "lying", LYING.format(verdict))
            os.chmod(program, 0o755)
            done = run([script("benchmark"), self.pairs, "--measure", program])
            self.note(f"benchmark --measure of a program that always says {verdict}",
                      done.status == 1 and done.out.count("WRONG") == 2 * wrong, done.why())
        done = run([script("benchmark"), self.pairs, "--measure", BBEQ, "--only", "chain"])
        self.note("benchmark --only", done.status == 0 and "2 pairs, 0 wrong" in done.out,
                  done.why())

    def test_bad(self):
        write(self.folder, "list", "a b\n")
        for words in ([self.pairs, "--measure", "nowhere"], [self.folder, "--measure", BBEQ],
                      [self.pairs, "--limit", "0"], [self.pairs, "--measure", BBEQ, BBEQ, BBEQ],
                      [self.pairs, "--measure", BBEQ, "--only", "none of these"]):
            done = run([script("benchmark"), *words])
            self.note(f"benchmark {' '.join(map(os.path.basename, words))}",
                      is_told(done, "benchmark"), done.why())
