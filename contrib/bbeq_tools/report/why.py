"""Shows why no contents of the boxes are right: vectors at which boxes see the same and have to
answer differently.

Where `input` or `expand` finds a mistake, the report shows no vector: at each vector some contents
would do, and no contents suit all. This script takes the vectors of a report with `--proof`, or has
the program find some, and leaves out vectors, outputs and differences as long as the verdict stays
`error`; so none of what it shows can be left out. For each vector it says what the boxes see and
must give, and at last which inputs and registers would tell the vectors apart. Both texts have
their registers in the top, as those of `gates` have."""
import tempfile
from itertools import product

from bbeq_tools.cli import Fault, Output, run_script
from bbeq_tools.program import find_program
from bbeq_tools.report.alike import pin_texts, remedies, sight, told_answers
from bbeq_tools.report.buses import shown
from bbeq_tools.report.cared import add_care_words, care_of_report, why_open
from bbeq_tools.report.least import least
from bbeq_tools.report.possible import Possible, TooMany
from bbeq_tools.report.reports import (add_report_words, read_report, vectors as shown_vectors,
                                       verdict)
from bbeq_tools.report.restricted import Restricted
from bbeq_tools.words import Words

MOST_TRIALS = 400  # To make bits the same in all vectors.
RUN = 10  # A run of the program takes as long as so many trials.


def parse_words():
    parser = Words(prog="why", description=__doc__.split("\n\n")[0],
                   epilog="The program is $BBEQ, or bbeq on the PATH, or the one that was built in "
                   "this repository. Words of bbeq after `--` are handed to it.")
    add_report_words(parser)
    add_care_words(parser)
    parser.add_argument("-o", "--output", metavar="FILE",
                        help="write the vectors there, as a report that `wave` shows")
    parser.add_argument("--runs", action="store_true", help="print each run: how many outputs it "
                        "had, its verdict, its words, and the outputs")
    words, others = parser.parse_known_args()
    words.others = [word for word in others if word != "--"]
    return words


def vectors_in(lines, names):
    """The vectors of a report, from its proof or from its lines `input`."""
    found = [line.split(" ")[1] for line in lines if line.startswith("vector ")]
    if any(len(bits) != len(names) for bits in found):
        raise Fault("the report is of other texts: its vectors have another length")
    if found:
        return [dict(zip(names, bits)) for bits in found]
    inputs = [bits for _, _, bits in shown_vectors(lines)]
    return [{name: bits[name[1]] for name in names} for bits in inputs
            if all(name[1] in bits for name in names)]


class Explained:
    """Outputs and vectors of which none can be left out."""

    def __init__(self, runs, lines):
        self.runs, self.kept, self.trials = runs, runs.all(), 0
        self.possible = Possible(runs.designs, "--shared" in runs.words.others, runs.care)
        self.vectors = vectors_in(lines, runs.names) or runs.proof(self.kept)
        if self.vectors and self.is_wrong(self.kept, self.vectors):
            self.leave_out()
        else:
            self.by_outputs()

    def is_wrong(self, kept, vectors=None):
        """Whether no contents are right: by trial where the pins are few, else by a run."""
        if vectors is not None and self.possible.can_try(kept):
            self.trials += 1
            self.runs.tell(f"{self.trials} trials, {len(kept)} outputs, {len(vectors)} vectors")
            try:
                return not self.possible.fits(kept, vectors)
            except TooMany:
                pass
        return self.runs.verdict(kept, vectors) == "error"

    def by_outputs(self):
        """Where no vectors are known: with fewer outputs `expand` may find some."""
        if not self.is_wrong(self.kept):
            raise Fault("the verdict is no error of these texts; the report is of others, or "
                        "of other words")
        self.kept = least(self.kept, self.is_wrong)
        self.vectors = self.runs.proof(self.kept)
        if self.vectors and self.is_wrong(self.kept, self.vectors):
            self.leave_out()
        else:
            self.vectors = []

    def leave_out(self):
        if not self.possible.can_try(self.kept):
            self.fewer_outputs()
        self.fewer_vectors()
        self.fewer_outputs()
        self.fewer_vectors()
        for at in range(1, len(self.vectors)):
            self.draw_near(at)
        self.fewer_vectors()
        self.fewer_outputs()
        self.draw_together()
        if self.runs.verdict(self.kept, self.vectors) == "repairable":
            raise Fault("bbeq finds contents that are right at vectors at which none are by trial; "
                        "please report this fault with both texts")

    def fewer_vectors(self):
        self.vectors = least(self.vectors, lambda left: self.is_wrong(self.kept, left))

    def fewer_outputs(self):
        self.kept = least(self.kept, lambda left: self.is_wrong(left, self.vectors))

    def draw_near(self, at):
        """Makes a vector as like the first as it can be."""
        first, own, counts = self.vectors[0], self.vectors[at], self.possible.names(self.kept)

        def with_own(names):
            return [*self.vectors[:at], first | {name: own[name] for name in names},
                    *self.vectors[at + 1:]]

        apart = least([name for name in own if own[name] != first[name] and name in counts],
                      lambda names: self.is_wrong(self.kept, with_own(names)))
        self.vectors = with_own(apart)

    def cost(self):
        """Of what was tried so far, in trials."""
        return self.trials + RUN * self.runs.count

    def draw_together(self):
        """Gives inputs and registers the same bit in all vectors where these stay wrong: a pin on
        one that still differs is no accident of the vectors."""
        most, before = self.cost() + MOST_TRIALS, None
        while self.vectors != before:
            before, counts = self.vectors, self.possible.names(self.kept)
            for name, bit in product(self.runs.names, "01"):
                if len({vector[name] for vector in self.vectors}) == 1:
                    continue
                alike = [vector | {name: bit} for vector in self.vectors]
                if name not in counts or self.cost() < most and self.is_wrong(self.kept, alike):
                    self.vectors = alike
            self.fewer_vectors()
            self.fewer_outputs()


def told_name(name):
    kind, text = name
    return f"{kind} {text}"


def tell(explained):
    possible, kept, found = explained.possible, explained.kept, explained.vectors
    for name in kept:
        print(told_name(name))
    boxes = possible.boxes(kept)
    print(f"boxes {' '.join(box.path for box in boxes)}" if boxes else "no box is seen")
    sights = [sight(possible, kept, vector) for vector in found]
    for number, (vector, seen) in enumerate(zip(found, sights), 1):
        print(f"vector {number}: {shown({text: bit for (_, text), bit in vector.items()})}")
        for path, row in seen.rows.items():
            print(f"  {path} sees {shown(row) or 'nothing'}")
        answer = told_answers(pin_texts(possible, kept), seen.right)
        if answer and boxes:
            forced = ", ".join(map(told_name, seen.forced))
            print(f"  {answer}" + (f", for {forced}" if forced else ""))
    for line in remedies(possible, kept, found, sights) if found else (
            ["`expand` finds no vectors within its clauses; --clauses after `--` gives it more"]):
        print(line)


def as_report(found):
    lines = [" ".join(["input", *(f"{text}={bit}" for (_, text), bit in vector.items())])
             for vector in found]
    return "".join(f"{line}\n" for line in [*lines, "verdict error"])


def command():
    words = parse_words()
    output = Output(words.output, [words.report, words.specification,
                                   words.implementation]) if words.output else None
    lines = read_report(words.report)
    if verdict(lines) != "error":
        raise Fault(f"{words.report}: the verdict is {verdict(lines)}{why_open(lines)}, so there "
                    "is no error to explain")
    words.care = care_of_report("why", words, lines, "vectors count where the invariant {} is 1; "
                                "whether their states are ever reached is not looked at")
    program = find_program()
    if not program:
        raise Fault("bbeq is not there; run ./bbeq once, or set BBEQ")
    with tempfile.TemporaryDirectory(prefix="why") as folder:
        runs = Restricted(words, folder, program)
        explained = Explained(runs, lines)
        tell(explained)
    if runs.opened:
        print(f"{runs.opened} runs were open, so that perhaps more could be left out")
    if output:
        output.write(as_report(explained.vectors))


def main():
    run_script("why", command)
