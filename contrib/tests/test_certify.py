"""The tries of `certify`: errors of each check are certified, and reports that are damaged so that
they show no error, by what is true of all that boxes may give, are refused."""
import argparse
import os
import random
import shutil
from collections import Counter

from bbeq_tools.certify.certify import NotSo, Pair, check_error, errors_in
from bbeq_tools.certify.refuted import Reasons
from bbeq_tools.cli import Fault
from bbeq_tools.developing.drawn import drawn_apart, drawn_cared, drawn_pair, drawn_shared
from bbeq_tools.developing.propagation import drawn_clauses, has_model, refutation
from bbeq_tools.reference.truths import pair_of
from bbeq_tools.report.lrat import follows
from bbeq_tools.verilog.language import read_modules, top_of
from tests.tries import Tries, bbeq, example, is_told, run, script, write

CERTIFIED = int(os.environ.get("CHECK_CERTIFIED", "24"))  # Drawn pairs with an error.
DAMAGED = 20  # Reports of each kind of damage that are refused.
STILL_SHOWN = 3  # Those of each kind that show an error all the same.
ASKED = ([], ["--from", "expand"], ["--from", "output"], ["--from", "expand"], ["--from", "local"])
# Nine boxes of two outputs each are more than are simulated; a gate beside them is wrong.
MANY = ("module s(a, b, y, z); input a, b; output y, z; and(y, a, b); xor(z, a, b); endmodule\n",
        "module t(a, b, y, z); input a, b; output y, z; or(y, a, b);\n"
        + "".join(f"  m u{at}(a, b, p{at}, q{at});\n" for at in range(9))
        + f"  xor(z, {', '.join(f'p{at}, q{at}' for at in range(9))});\nendmodule\n"
        "module m(i, j, o, p); input i, j; output o, p; endmodule\n")


def drawn(seed):
    """Two texts and the words of bbeq on what they are compared in."""
    kind = seed % 4
    if kind == 0:
        return drawn_pair(seed), []
    if kind == 1:
        return drawn_shared(seed), ["--shared"]
    if kind == 2:
        texts, care, shared = drawn_cared(seed)
        return texts, ["--care", care, *["--shared"] * shared]
    return drawn_apart(seed), []


class Drawn:
    """A drawn pair with an error, its report, and what is true of it by trying everything."""

    def __init__(self, folder, seed, asked):
        self.folder = os.path.join(folder, str(seed))
        os.makedirs(self.folder, exist_ok=True)
        texts, self.words = drawn(seed)
        self.paths = [write(self.folder, name, text) for name, text in zip(("s.v", "i.v"), texts)]
        self.report = bbeq(*self.paths, "--proof", *asked, *self.words)
        self.lines, self.pair, self.judge = self.report.out.splitlines(), None, None
        self.shared = "--shared" in self.words
        self.care = self.words[1] if "--care" in self.words else None

    def check(self):
        """The name of the check that found the error."""
        return next((line.split()[1] for line in self.lines
                     if line.startswith("rung ") and line.endswith(" error")), None)

    def certified(self, lines):
        """Whether `certify` takes these lines for the error of this pair."""
        if self.pair is None:
            self.pair = Pair(argparse.Namespace(
                specification=self.paths[0], implementation=self.paths[1], top_spec=None,
                top_impl=None, shared=self.shared, care=self.care), self.folder)
        try:
            return all([check_error(self.pair, error) for error in errors_in(lines)])
        except (NotSo, Fault):
            return False

    def names(self):
        """The outputs and registers that are compared."""
        self.read()
        return self.judge.outputs

    def read(self):
        if self.judge is None:
            sides = [read_modules(path)[1] for path in self.paths]
            self.judge = pair_of(*[(modules, top_of(path, modules, None)) for path, modules
                                   in zip(self.paths, sides)], self.shared, self.care)

    def is_shown(self, lines):
        """Whether they show one, by trying all that the boxes may give at each vector."""
        self.read()
        names, many = None, []
        for line in lines:
            words = line.split(" ")
            if words[0] in ("output", "next"):
                names = (words[0], words[1])
            elif words[0] == "vector" and len(words[1]) != len(self.judge.names):
                return False
            elif words[0] == "vector":
                many.append(int(words[1], 2))
            elif words[0] == "input":
                return self.is_wrong(names, [word.rsplit("=", 1) for word in words[1:]])
        return not has_tables([right_rows(self.judge, at) for at in many], {})

    def is_wrong(self, name, bits):
        judge = self.judge
        if [word for word, _ in bits] != [name for _, name in judge.names] or (
                name and name not in judge.outputs):
            return False
        at = int("".join(bit for _, bit in bits), 2)
        places = [judge.outputs.index(name)] if name else range(len(judge.outputs))
        return all(any(wrong[place] >> at & 1 for place in places)
                   for wrong, _ in judge.free.values())


def right_rows(judge, at):
    """What boxes may give at a vector so that all is right: each way as rows of their tables with
    the outputs that stand there."""
    found = {}
    for bits, (wrong, rows) in judge.free.items():
        if any(mask >> at & 1 for mask in wrong):
            continue
        own = [((judge.keys[box.path], row), outs) for box, read, outs
               in zip(judge.boxes, rows, bits) for row, mask in read.items() if mask >> at & 1]
        if len(dict(own)) == len(set(own)):
            found[frozenset(own)] = dict(own)
    return list(found.values())


def has_tables(choices, known):
    """Some tables, which have the rows that are known, have the rows of one way for each vector."""
    if not choices:
        return True
    left = [[way for way in ways if all(known.get(row, outs) == outs for row, outs in way.items())]
            for ways in choices]
    left.sort(key=len)
    return any(has_tables(left[1:], {**known, **way}) for way in left[0])


# The kinds of damage; each gives other lines, or None where there is nothing to damage so.


def other_bit(draw, lines, _names):
    at = draw.choice([at for at, line in enumerate(lines) if line.startswith(("input ", "vector "))]
                     or [None])
    places = [] if at is None else [
        place for place in range(lines[at].index(" ") + 1, len(lines[at]))
        if lines[at][place] in "01" and (lines[at][0] == "v" or lines[at][place - 1] == "=")]
    if not places:
        return None
    place = draw.choice(places)
    bit = "10"[int(lines[at][place])]
    return [*lines[:at], lines[at][:place] + bit + lines[at][place + 1:], *lines[at + 1:]]


def left_out(draw, lines, _names):
    places = [at for at, line in enumerate(lines) if line.startswith("vector ")]
    if len(places) < 2:
        return None
    at = draw.choice(places)
    return lines[:at] + lines[at + 1:]


def other_output(draw, lines, names):
    places = [at for at, line in enumerate(lines) if line.startswith(("output ", "next "))]
    others = [" ".join(name) for name in names if " ".join(name) not in lines]
    if not places or not others:
        return None
    return [*lines[:places[0]], draw.choice(others), *lines[places[0] + 1:]]


DAMAGES = {"another bit": other_bit, "a vector left out": left_out,
           "another output": other_output}
KINDS = [*DAMAGES, "another pair"]


class Certify(Tries):
    part = "certify"

    def certified(self, name, spec, implementation, *words):
        """`certify` takes the report of the program on these two."""
        report = bbeq(spec, implementation, "--proof", *words)
        own = [word for at, word in enumerate(words) if word in ("--shared", "--care")
               or at and words[at - 1] == "--care"]
        done = run([script("certify"), write(self.folder, "report", report.out), spec,
                    implementation, *own])
        self.note(f"certify {name}", done.status == 0 and "\ncertified: verdict error\n" in done.out
                  and "\ntrusted: Yosys" in done.out, done.why())
        return done

    def test_examples(self):
        for name, *words in (("adder",), ("nor",), ("lanes",), ("alu", "--all"),
                             ("twins", "--from", "expand", "--shared")):
            self.certified(" ".join([f"examples/{name}", *words]), example(name, "spec.v"),
                           example(name, "impl.v"), *words)
        sides = [write(self.folder, name, text) for name, text in zip(("s.v", "i.v"), MANY)]
        for words in ([], ["--from", "output"], ["--from", "expand"]):
            done = self.certified(f"many boxes {' '.join(words)}", *sides, *words)
            self.note("it says who refuted the clauses", "cadical" not in done.out
                      or not shutil.which("cadical") or "whose proof" in done.out, done.out)

    def test_statuses(self):
        sides = example("lanes", "spec.v"), example("lanes", "impl.v")
        report = bbeq(*sides).out
        done = run([script("certify"), write(self.folder, "report", report), *sides])
        self.note("an expansion without its proof", done.status == 3 and "--proof" in done.out
                  and "\nnot certified: " in done.out, done.why())
        lines = bbeq(*sides, "--proof").out.splitlines()
        first = next(line for line in lines if line.startswith("vector "))
        short = [line for line in lines if line == first or not line.startswith("vector ")]
        done = run([script("certify"), write(self.folder, "short", "\n".join(short)), *sides])
        self.note("vectors left out", done.status == 1 and is_told(done, "certify"), done.why())
        other = example("alu", "spec.v"), example("alu", "impl.v")
        done = run([script("certify"), write(self.folder, "report", "\n".join(lines)), *other])
        self.note("a report of another pair", done.status == 125 and is_told(done, "certify"),
                  done.why())
        opened = write(self.folder, "open", "rung ternary none\nverdict open\n")
        done = run([script("certify"), opened, *sides])
        self.note("a report without an error", done.status == 125 and is_told(done, "certify"),
                  done.why())

    def pairs(self):
        """Drawn pairs with an error, each check in its turn."""
        for seed in range(1_000):
            found = Drawn(self.folder, seed, ASKED[seed // 4 % len(ASKED)])
            if found.report.status == 1 and found.check() != "input":
                yield seed, found

    def test_drawn(self):
        checks, refused, kept, last, draw = Counter(), Counter(), Counter(), [], random.Random(1)
        for seed, found in self.pairs():
            if checks[found.check()] < CERTIFIED // 4:
                checks[found.check()] += 1
                self.note(f"certify drawn pair {seed} {' '.join(found.words)}: {found.check()}",
                          found.certified(found.lines) and found.is_shown(found.lines),
                          found.report.out[:300])
            for kind, lines in damaged(draw, found, last):
                due = refused[kind] < DAMAGED and found.is_shown(lines)
                count = kept if due else refused
                if count[kind] < (STILL_SHOWN if due else DAMAGED):
                    count[kind] += 1
                    self.note(f"certify drawn pair {seed}, {kind}, {'' if due else 'not '}an error",
                              found.certified(lines) == due, "\n".join(lines)[:300])
            last = last[-3:] + [found.lines]
            if checks.total() >= CERTIFIED and min(refused[kind] for kind in KINDS) >= DAMAGED:
                break
        self.note(f"errors of {dict(checks)}, refused {dict(refused)}", len(checks) >= 4
                  and min(refused[kind] for kind in KINDS) >= DAMAGED)

    def test_reasons(self):
        """What is found of a clause's reasons is what an LRAT checker takes."""
        for seed in range(200):
            draw = random.Random(f"reasons {seed}")
            variables = draw.randint(1, 8)
            clauses = drawn_clauses(draw, variables, 5 * variables + 2, (1, 2, 2, 3, 3))
            if has_model(variables, clauses):
                continue
            reasons, known = Reasons(clauses), dict(enumerate(map(list, clauses), 1))
            right = True
            for clause in [*refutation(clauses), []]:
                hints = reasons.hints(clause)
                right = right and follows(clause, hints, known)
                known[len(known) + 1] = clause
                if not clause:
                    break
                reasons.add(list(clause))
            if not right:
                self.note(f"reasons of formula {seed}", False)
        self.note("reasons of drawn formulas", not self.failed)


def damaged(draw, found, last):
    """For each kind of damage some lines."""
    for kind, damage in DAMAGES.items():
        made = [damage(draw, found.lines, found.names()) for _ in range(6)]
        for lines in {tuple(lines): lines for lines in made if lines}.values():
            yield kind, lines
    if last:
        yield "another pair", last[-1]
