"""Runs the program on drawn words, drawn bytes, and both, with and without an allocation that is
refused.

Each draw is run undisturbed: the status has to be one of 0 to 4, with a report of its form on
standard output, and nothing on standard error. Then an allocation is refused, or it and all later
ones, of a number that is drawn too: the status has to be 5 with nothing written, or the run's own
status and bytes. It ends with 125 at the first other answer, and keeps the texts of it."""
import os
import random
import re
import shutil
import subprocess
import tempfile
import time
from collections import Counter

from bbeq_tools.cli import Fault, run_script
from bbeq_tools.developing.allocations import Runs
from bbeq_tools.developing.drawn import drawn_pair
from bbeq_tools.developing.propagation import drawn_clauses, formula, spelt
from bbeq_tools.program import find_program
from bbeq_tools.words import Words

FORMS = {0: rb"(?s).*(verdict repairable\n(fill\nmodule filled\(.*endmodule\n|fill clash [!-~]+\n"
            rb"|fill toolarge\n)?|rup yes\n)",
         1: rb"(?s).*(verdict error|rup no [0-9]+)\n", 2: rb"refused [ -~]+\n",
         3: rb"(?s).*verdict open\n", 4: rb"unread (spec|impl)\n"}
SECONDS = 60  # One run.
RUNGS = ("ternary", "symbolic", "local", "output", "input", "expand")
NUMBERS = ("0", "1", "2", "7", "12", "00", "1000", "4096", "4097", "-1", "+1", "1e3", "", " 1",
           "256", "257", "18446744073709551616", "0x1")
PIECES = (b"module", b"endmodule", b"input", b"output", b"wire", b"reg", b"assign",
          b"always @(posedge", b"supply0", b"xor", b"buf(", b"(* x *)", b"/*", b"*/", b"//",
          b"`celldefine\n", b"4'b10", b"'h", b"128'd9", b"65536", b"2147483648", b"[65536:0]", b"{",
          b"}", b"{999{", b"(", b")", b";", b",", b".", b"~", b"?", b":", b"<=", b"==", b"\\",
          b"\\a[0] ", b"\0", b"\xff", b"\xc3\xa9", b"\r\n", b"\n", b"\t", b"p cnf 2 2\n",
          b"p cnf 9999999999 1\n", b" 0\n", b"-", b"d ", b"c x\n", b"%")


def parse_words():
    parser = Words(prog="fuzz", description=__doc__.split("\n\n", maxsplit=1)[0])
    parser.add_argument("--runs", type=int, default=1000, metavar="N",
                        help="so many draws, each with two runs (default 1000)")
    parser.add_argument("--minutes", type=float, metavar="M", help="end after so many minutes")
    parser.add_argument("--seed", type=int, default=1, metavar="S",
                        help="the first draw (default 1)")
    parser.add_argument("--keep", default=".", metavar="FOLDER",
                        help="where the texts of a wrong answer are left (default here)")
    return parser.parse_args()


def drawn_texts(draw):
    """Two texts that are mostly well formed: of a pair, or of a formula with additions."""
    if draw.randrange(4):
        return [text.encode("latin-1") for text in drawn_pair(draw.randrange(1 << 30))]
    variables = draw.randint(1, 6)
    clauses = drawn_clauses(draw, variables, draw.randint(0, 12), (1, 2, 2, 3))
    return [formula(variables, clauses).encode(),
            spelt(drawn_clauses(draw, variables, draw.randint(0, 4), (0, 1, 2))).encode()]


def damaged(draw, text):
    """A text with some of its bytes gone, exchanged, doubled or new."""
    for _ in range(draw.choice((1, 1, 1, 2, 3, 8))):
        at, length = draw.randrange(len(text) + 1), draw.choice((0, 1, 1, 2, 5, 40))
        kind = draw.randrange(7)
        if kind == 0:
            text = text[:at]
        elif kind == 1:
            text = text[:at] + text[at + length:]
        elif kind == 2:
            text = text[:at] + text[at:at + length] + text[at:]
        elif kind == 3:
            text = text[:at] + draw.choice(PIECES) + text[at:]
        elif kind == 4:
            text = text[:at] + draw.choice(PIECES) + text[at + length:]
        elif kind == 5:
            text = text[:at] + bytes([draw.randrange(256)]) + text[at + 1:]
        else:
            words = re.split(rb"(\s+)", text)
            one, other = draw.randrange(len(words)), draw.randrange(len(words))
            words[one], words[other] = words[other], words[one]
            text = b"".join(words)
    return text


def drawn_options(draw, spec, implementation):
    """Words that are mostly of the form that is asked for."""
    files = [draw.choice((spec, implementation, "nowhere", ".", "", "/dev/null", "-"))
             if not draw.randrange(8) else name for name in (spec, implementation)]
    names = ("y", "y[0]", "y[1]", "k", "q", "", "\u00e9", "\t", "\x7f")
    values = {"--top-spec": ("s", "t", "", "ha"), "--top-impl": ("t", "s", "b11"), "--from": RUNGS
              + ("none",), "--to": RUNGS + ("",), "--patterns": NUMBERS, "--seed": NUMBERS,
              "--nodes": NUMBERS, "--clauses": NUMBERS, "--cache": NUMBERS, "--make": NUMBERS,
              "--care": names, "--invariant": names}
    words = files[:draw.choice((0, 1, 2, 2, 2, 2, 2, 2))]
    for _ in range(draw.choice((0, 1, 1, 2, 3, 5))):
        name = draw.choice(list(values))
        value = draw.choice(values[name])
        words += draw.choice(([name, value], [f"{name}={value}"], [name], ["--all"], ["--proof"],
                              ["--shared"], ["--fill"], ["--rup"], ["--"], ["-x"], ["--no-such"],
                              [value], ["--all=1"], ["\u00e9"]))
    if draw.randrange(2):
        draw.shuffle(words)
    return words


class Tries:
    """The runs so far, by what was drawn and how they ended."""

    def __init__(self, runs, folder, keep):
        self.runs, self.folder, self.keep = runs, folder, keep
        self.own, self.refused, self.late, self.wanting = Counter(), Counter(), 0, Counter()
        self.paths = [os.path.join(folder, name) for name in ("s.v", "i.v")]

    def draw(self, seed):
        draw = random.Random(f"fuzz {seed}")
        kind = ("words", "bytes", "both")[seed % 3]
        texts = drawn_texts(draw)
        if kind != "words":
            texts = [damaged(draw, text) if draw.randrange(3) else text for text in texts]
        for path, text in zip(self.paths, texts):
            with open(path, "wb") as file:
                file.write(text)
        rup = ["--rup"] if texts[0].startswith(b"p cnf") else []
        words = (drawn_options(draw, *self.paths) if kind != "bytes"
                 else [*self.paths, *rup, *draw.choice(([], ["--all"], ["--proof"]))])
        self.run(seed, kind, draw, words)

    def run(self, seed, kind, draw, words):
        try:
            own = self.runs.run(words, seconds=SECONDS)
            count = self.runs.count()
            self.own[kind, own[0]] += 1
            if own[0] not in FORMS or not re.fullmatch(FORMS[own[0]], own[1]):
                self.wrong(seed, words, "undisturbed", own)
            first, onwards = draw.randint(1, max(1, count)), not draw.randrange(4)
            answer = self.runs.run(words, first, onwards, SECONDS)
        except subprocess.TimeoutExpired:
            self.late += 1
            return
        self.refused[kind, "5" if answer == (5, b"") else "own"] += 1
        if answer != (5, b"") and answer != own:
            self.wrong(seed, words, f"allocation {first} of "
                       f"{count}{' and later ones' if onwards else ''} refused", answer)
        if answer == own and count:
            self.wanting[self.runs.wanting()] += 1

    def wrong(self, seed, words, what, answer):
        for path in self.paths:
            shutil.copy(path, os.path.join(self.keep, f"fuzz-{seed}-{os.path.basename(path)}"))
        raise Fault(f"draw {seed}, {what}: {' '.join(words)}: status {answer[0]}, "
                    f"{answer[1][:80]!r}")

    def tell(self, seconds):
        for kind in ("words", "bytes", "both"):
            statuses = ", ".join(f"{status}: {self.own[kind, status]}" for status in FORMS)
            print(f"{kind}: undisturbed {statuses}; refused 5: {self.refused[kind, '5']}, own: "
                  f"{self.refused[kind, 'own']}")
        print(f"{sum(self.own.values())} draws in {seconds:.0f} seconds, {self.late} took longer "
              f"than {SECONDS}")
        for name, number in sorted(self.wanting.items()):
            print(f"own answer without the memory that {name} wanted: {number} times")


def command():
    words = parse_words()
    program = find_program()
    if program is None:
        raise Fault("the program is not there; run ./bbeq once, or set BBEQ")
    with tempfile.TemporaryDirectory(prefix="fuzz") as folder:
        tries, begun = Tries(Runs(folder, program), folder, words.keep), time.monotonic()
        for seed in range(words.seed, words.seed + words.runs):
            if words.minutes and time.monotonic() - begun > 60 * words.minutes:
                break
            tries.draw(seed)
        tries.tell(time.monotonic() - begun)


def main():
    run_script("fuzz", command)
