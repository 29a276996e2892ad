"""Reports of small pairs against what `evaluate` finds by trying everything: the pairs by hand,
which are rows of crates/bb_test_cases, and $CHECK_PAIRS pairs that are drawn. What the crates for
tests have from `evaluate` is found anew."""
import os
import random
import re

from bbeq_tools.developing.drawn import drawn_cared, drawn_pair, drawn_shared
from bbeq_tools.developing.nesting import drawn_nested
from bbeq_tools.reference.truths import (CHECKS, MOST_CONTENTS, by_rows, climb, in_order, pair_of,
                                         vectors)
from bbeq_tools.report.reports import tables
from bbeq_tools.verilog.language import Reader, top_of
from bbeq_tools.verilog.values import Design
from bbeq_tools.verilog.world import World
from tests.test_rows import all_rows
from tests.tries import TOP, Tries, bbeq, example, is_told, read, run, script, write

OR = "or with the tables "
DESIGNS = os.path.join(TOP, "crates", "bb_test_designs", "src", "designs.rt")
DRAWN = int(os.environ.get("CHECK_PAIRS", "300"))
STATUSES = {"verdict repairable": 0, "verdict error": 1, "verdict open": 3}
UNFINISHED = re.compile(r"^rung (\w+) (nodes|clauses)$", re.MULTILINE)


class Reports(Tries):
    part = "reports"
    needs = ()

    def test_reports(self):
        evaluate_tries(self, self.folder)
        for seed in range(10):
            try_patterns(self, self.folder, random.Random(f"patterns {seed}"))
        for block in blocks_in(DESIGNS):
            try_design(self, *re.fullmatch(r"design ([^\n]*)\n(.*)\nnames [^\n]*\n(.*)", block,
                                           re.DOTALL).groups())
        for spec, implementation, answer, reports in pairs_by_hand():
            try_by_hand(self, self.folder, (spec, implementation), answer, reports)
        verdicts = [try_drawn(self, self.folder, seed) for seed in range(DRAWN)]
        shares = {name: verdicts.count(name) for name in ("error", "repairable", "open")}
        self.note(f"drawn pairs: {shares}, at least a fifth each",
                  all(5 * count >= DRAWN for count in shares.values()))
        verdicts = [try_shared(self, self.folder, seed) for seed in range(DRAWN)]
        shares = {name: verdicts.count(name) for name in ("error", "repairable", "sharing")}
        self.note(f"drawn pairs of shared contents: {shares}, at least a fifth each",
                  all(5 * count >= DRAWN for count in shares.values()))
        verdicts = [try_cared(self, self.folder, seed) for seed in range(DRAWN)]
        shares = {name: verdicts.count(name) for name in ("error", "repairable", "legal")}
        self.note(f"drawn pairs with a care output: {shares}, at least a fifth each",
                  all(5 * count >= DRAWN for count in shares.values()))
        verdicts = [try_nested(self, self.folder, seed) for seed in range(DRAWN)]
        shares = {name: verdicts.count(name) for name in ("error", "repairable", "open")}
        self.note(f"drawn pairs by choices: {shares}, at least a fifth each",
                  all(5 * count >= DRAWN for count in shares.values()))


def pair_in(texts, shared=False, care=None):
    sides = [{module.name: module for module in Reader(text).modules()} for text in texts]
    return pair_of(*[(modules, top_of("a text", modules, None)) for modules in sides], shared, care)


def blocks_in(path):
    """The blocks of the long text in a file of tests."""
    return re.search(r'= r(#?)"(.*?)"\1;', read(path), re.DOTALL).group(2).split("\n\n")


def report_of(folder, texts, *words):
    spec, implementation = write(folder, "spec.v", texts[0]), write(folder, "impl.v", texts[1])
    return bbeq(spec, implementation, *words)


# Designs with the values of their outputs.

def contents_of(boxes, words):
    """The contents that tables have, each with its rows one behind the other."""
    rows = [[word[at:at + len(box.outs)] for at in range(0, len(word), len(box.outs))] if box.outs
            else [""] * 2 ** len(box.ins) for box, word in zip(boxes, words)]
    return {box.path: [tuple(bit == "1" for bit in row) for row in of]
            for box, of in zip(boxes, rows)}


def try_design(tally, name, text, rows):
    modules = {module.name: module for module in Reader(text).modules()}
    design = Design(modules, modules["t"])
    vector, wrong = vectors(design.inputs), []
    for row in rows.splitlines():
        words, points = row.split(": ")
        world = World(design, vector,
                      by_rows(contents_of(in_order(design, vector), words.split(" ")[1:])))
        bits = [make(world) for _, make in design.outputs]
        wrong += [point for point in points.split(" ") if point.split(":")[1]
                  != "".join(str(bit.one >> int(point.split(":")[0], 2) & 1) for bit in bits)]
    tally.note(f"values of {name}", not wrong, " ".join(wrong))


# Pairs by hand.

def pairs_by_hand():
    """Each with its answer and the reports that it may have: that of its row, and those with the
    tables in a comment."""
    for row in all_rows():
        if row.place == "pairs":
            report = row.report.rstrip("\n")
            others = [comment.removeprefix(OR).split(", ")
                      for comment in row.comments if comment.startswith(OR)]
            yield (row.files["s.v"], row.files["i.v"], row.name,
                   [report, *(with_tables(report, other) for other in others)])


def with_tables(report, tables_due):
    lines = report.split("\n")
    first = next(at for at, line in enumerate(lines) if line.startswith("table "))
    rest = [line for line in lines[first:] if not line.startswith("table ")]
    return "\n".join([*lines[:first], *(f"table {table}" for table in tables_due), *rest])


def all_reports(pair):
    """The report, with each contents that agree where several boxes are filled."""
    lines = climb(pair)
    if "rung expand repair" not in lines:
        return [lines]
    front = lines[:lines.index("rung expand repair") + 1]
    return [[*front, *pair.table_lines(contents), lines[-1]] for contents in pair.completions()]


def can_be_tried(pair):
    """There are no more contents than `evaluate` tries."""
    return sum(len(box.outs) << len(box.ins) for box in pair.kinds.values()) <= MOST_CONTENTS


def some_agree(pair):
    """Whether some contents agree: of all, or of more than can be tried those that the check by
    choices gives."""
    if can_be_tried(pair):
        return next(pair.completions(), None) is not None
    contents = pair.contents_in(tables(climb(pair)))
    return contents is not None and pair.difference(contents) is None


def try_by_hand(tally, folder, texts, answer, reports):
    pair = pair_in(texts)
    agree = some_agree(pair)
    tally.note(f"by hand, {answer}", agree == answer.startswith("yes: "),
               "evaluate finds another answer")
    due = ["\n".join(lines) for lines in all_reports(pair)]
    tally.note("  its reports are those that are due", sorted(due) == sorted(reports),
               "\n".join(due))
    done = report_of(folder, texts)
    tally.note("  and the program says one of them",
               done.out.rstrip("\n") in due and done.status == 1 - agree, done.why())
    try_deciders(tally, folder, "  and so do the checks that decide", texts, pair)


# Any pair.

def is_due(pair, done, **asked):
    """A report is the one that is due, but for the tables of the last check, which have to agree,
    and for checks that are said to need more than they may have."""
    unfinished = dict(UNFINISHED.findall(done.out))
    lines, told = climb(pair, unfinished=unfinished, **asked), done.out.splitlines()
    if "rung expand repair" in lines:
        contents = pair.contents_in(tables(told))
        if contents is None or pair.difference(contents):
            return False
        lines = [*lines[:lines.index("rung expand repair") + 1], *pair.table_lines(contents),
                 lines[-1]]
    return told == lines and done.status == STATUSES[lines[-1]]


def try_deciders(tally, folder, name, texts, pair):
    asked = [("expand", "expand")] * can_be_tried(pair) + [("input",
                                                            "input")] * (pair.readers() is not None)
    done = [report_of(folder, texts, "--from", first, "--to", last) for first, last in asked]
    right = all(is_due(pair, one, first=first, last=last) and UNFINISHED.search(one.out) is None
                for one, (first, last) in zip(done, asked))
    tally.note(name, right, " ".join(one.why() for one in done))


def try_patterns(tally, folder, draw):
    """A mistake at one vector of 64, which the first check finds where it is one of the
    patterns."""
    names, seed = "abcdef", draw.randrange(1, 2 ** 64)
    product = " & ".join(draw.choice(("", "~")) + name for name in names)
    texts = [f"module m({', '.join(names)}, y); input {', '.join(names)}; output y; assign y = "
             f"{value}; endmodule\n" for value in (product, "1'b0")]
    done = report_of(folder, texts, "--to", "ternary", "--patterns", "48", "--seed", str(seed))
    tally.note(f"patterns of the seed {seed}",
               is_due(pair_in(texts), done, last="ternary", drawn=48, seed=seed), done.why())


# Drawn pairs.

def asked_of(draw):
    """What a drawn pair is asked for, as words and as what these mean: in a third of all cases all
    checks, else some."""
    first = draw.randrange(len(CHECKS)) if draw.randrange(3) == 0 else 0
    last = draw.randrange(first, len(CHECKS)) if draw.randrange(2) else len(CHECKS) - 1
    drawn, seed, go_on = draw.choice((0, 1, 32)), draw.choice((1, 2,
                                                               2 ** 64 - 1)), not draw.randrange(3)
    words = ["--from", CHECKS[first], "--to", CHECKS[last], "--patterns", str(drawn), "--seed",
             str(seed)] + ["--all"] * go_on
    return words, {"first": CHECKS[first], "last": CHECKS[last], "go_on": go_on, "drawn": drawn,
                   "seed": seed}


def try_drawn(tally, folder, seed):
    """Compares the reports of a drawn pair; the result is the verdict where some of the checks are
    asked for."""
    draw, texts = random.Random(f"asked {seed}"), drawn_pair(seed)
    pair = pair_in(texts)
    words, asked = asked_of(draw)
    limits = [f"--nodes={draw.randrange(60)}", f"--clauses={draw.randrange(400)}", "--all"]
    tries = [([], {}), (words, asked), (limits, {"go_on": True})]
    done = [report_of(folder, texts, *words) for words, _ in tries]
    wrong = [one for one, (_, asked) in zip(done, tries) if not is_due(pair, one, **asked)]
    wrong += [one for one in done[:2] if UNFINISHED.search(one.out)]
    tally.note(f"drawn pair {seed}", not wrong,
               "\n".join([" ".join(words), *texts, *[one.why() for one in wrong]]))
    try_deciders(tally, folder, f"drawn pair {seed}: the checks that decide", texts, pair)
    return done[1].out.split()[-1] if done[1].out else "none"


def try_shared(tally, folder, seed):
    """Compares the report of a drawn pair whose boxes of one module share their contents; the
    result is the verdict, or that only sharing is in the way of agreement."""
    texts = drawn_shared(seed)
    pair, done = pair_in(texts, True), report_of(folder, texts, "--shared")
    right = is_due(pair, done) and UNFINISHED.search(done.out) is None
    tally.note(f"drawn pair {seed} of shared contents", right, "\n".join([*texts, done.why()]))
    told = done.out.split()[-1] if done.out else "none"
    apart = next(pair_in(texts).completions(), None) is not None
    return "sharing" if told == "error" and apart else told


def try_cared(tally, folder, seed):
    """Compares the reports of a drawn pair with a care output; the result is the verdict, or that
    the two agree only where this output is 1."""
    texts, care, shared = drawn_cared(seed)
    words, asked = asked_of(random.Random(f"care asked {seed}"))
    given = ["--care", care] + ["--shared"] * shared
    pair, done = pair_in(texts, shared, care), [report_of(folder, texts, *given),
                                                report_of(folder, texts, *given, *words)]
    wrong = [one for one, of in zip(done, ({}, asked)) if not is_due(pair, one, **of)
             or UNFINISHED.search(one.out)]
    tally.note(f"drawn pair {seed} with the care output {care}", not wrong,
               "\n".join([*texts, *[one.why() for one in wrong]]))
    told = done[0].out.split()[-1] if done[0].out else "none"
    pair.counts = pair.every
    return "legal" if told == "repairable" and next(pair.completions(), None) is None else told


def try_nested(tally, folder, seed):
    """Compares what the check by choices says of a drawn pair with two or three boxes, of which
    half are nested; the result is its verdict. Where the boxes are nested it decides, and where
    they are not it gives no tables, as where they share their contents."""
    texts, words = drawn_nested(seed), ("--from", "input", "--to", "input")
    pair, done, shared = (pair_in(texts), report_of(folder, texts, *words),
                          report_of(folder, texts, *words, "--shared"))
    right = is_due(pair, done, first="input", last="input") and is_due(pair_in(texts, True), shared,
                                                                       first="input", last="input")
    told = done.out.split()[-1] if done.out else "none"
    if told == "repairable":
        right = right and pair.difference(pair.contents_in(tables(done.out.splitlines()))) is None
    if told == "error":
        right = right and next(pair.completions(), None) is None
    tally.note(f"drawn pair {seed} by choices", right,
               "\n".join([*texts, done.why(), shared.why()]))
    return told


# The script.

def evaluate_tries(tally, folder):
    carry = example("carry", "spec.v"), example("carry", "impl.v")
    done = run([script("evaluate"), *carry])
    tally.note("evaluate: a box that can be filled",
               done.out == "some contents agree\ntable u co 00010111\n", done.why())
    done = run([script("evaluate"), example("nor", "spec.v"), example("nor", "impl.v")])
    tally.note("evaluate: a mistake outside the box", done.out == "no contents agree\n", done.why())
    report = bbeq(*carry).out
    done = run([script("evaluate"), *carry, write(folder, "report", report)])
    tally.note("evaluate: the tables of a report agree",
               done.out == "the tables agree at every vector\n", done.why())
    done = run([script("evaluate"), *carry,
                write(folder, "other", report.replace("00010111", "00010011"))])
    tally.note("evaluate: other tables do not",
               done.status == 1 and done.out.endswith("input a=1 b=0 cin=1\n"), done.why())
    done = run([script("evaluate"), *carry,
                write(folder, "short", "table u co 01\nverdict repairable\n")])
    tally.note("evaluate refuses tables of other boxes", is_told(done, "evaluate"), done.why())
    legal = write(folder, "legal", "module s(a, k, y); input a; output k, y; buf(k, a); buf(y, "
                  "a); endmodule\n"), write(folder, "one", "module t(a, y); input a; output y; b "
                                            "u(y); endmodule\nmodule b(o); output o; endmodule\n")
    done = run([script("evaluate"), "--care", "k", *legal])
    tally.note("evaluate --care: what agrees where k is 1",
               done.out == "some contents agree\ntable u o 1\n", done.why())
    done = run([script("evaluate"), "--care", "y", *legal])
    tally.note("evaluate --care: the care output is no output of the implementation",
               is_told(done, "evaluate"), done.why())
    done = run([script("evaluate"), "--lines", *carry])
    tally.note("evaluate --lines: the report that is due", done.out == report, done.why())
