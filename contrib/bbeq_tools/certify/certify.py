"""Checks a report with `verdict error` against the two texts, without believing bbeq.

At the vector of a line `input` both texts are simulated by iverilog, for all bits that the boxes
may give there, or, where these are many, yosys makes clauses of them. For `rung expand error`, with
the lines `vector` of --proof, yosys makes clauses of both texts at these vectors, in which boxes
are tables; a solver refutes them, and its proof is checked. It says what it trusted. The status is
0 where the verdict is certified, 1 where what the report shows is no mistake, and 3 where it shows
nothing that could be checked."""
import argparse
import os
import subprocess
import sys
import tempfile
from typing import Dict, List, NamedTuple, Optional, Tuple

from bbeq_tools.certify.formula import FALSE, TRUE, Formula
from bbeq_tools.certify.netlists import Design, check_fit, known_as, read_designs
from bbeq_tools.certify.refuted import refute
from bbeq_tools.certify.simulated import Bits, Unread, simulate
from bbeq_tools.cli import Fault, run_script
from bbeq_tools.report.cared import add_care_words, care_of_report, why_open
from bbeq_tools.report.reports import (OTHER, Vector, add_report_words, read_report, vectors,
                                       verdict)
from bbeq_tools.words import Words

NOT_SO, NOTHING_SHOWN = 1, 3  # Statuses.
MOST_SIMULATED = 10  # Bits that the boxes give, of which all values are simulated.
Wrong = Optional[Tuple[str, str]]


class NotSo(Exception):
    """What the report shows and is no mistake, as one line."""


class Error(NamedTuple):
    """What a report shows behind an error of a check."""

    check: str
    input: Optional[Vector]
    vectors: List[str]


def parse_words() -> argparse.Namespace:
    first, _, rest = (__doc__ or "").partition("\n\n")
    parser = Words(prog="certify", description=f"{first}\n\n{rest}",
                   formatter_class=argparse.RawDescriptionHelpFormatter,
                   epilog="Needs yosys and iverilog, and for `expand` cadical or minisat.")
    add_report_words(parser)
    parser.add_argument("--shared", action="store_true", help="as for bbeq")
    add_care_words(parser)
    return parser.parse_args()


def errors_in(lines: List[str]) -> List[Error]:
    """The errors of a report, each with what is shown behind it."""
    starts = [at for at, line in enumerate(lines) if line.startswith(("rung ", "parts "))]
    found = []
    for start, end in zip(starts, [*starts[1:], len(lines)]):
        own = lines[start:end]
        words = own[0].split()
        if words[0] == "parts" or words[2:] == ["error"]:
            shown = vectors(own)
            bits = [line[7:] for line in own if line.startswith("vector ")]
            found.append(Error(words[1] if words[0] == "rung" else "a part",
                               shown[0] if shown else None, bits))
    return found


class Pair:
    """The two designs, and how they are looked at."""

    def __init__(self, words: argparse.Namespace, folder: str) -> None:
        self.folder, self.shared = folder, words.shared
        self.spec, self.impl = read_designs(
            folder, [words.specification, words.implementation], [words.top_spec, words.top_impl])
        self.care = self.spec.named("output", words.care) if words.care else None
        if words.care and self.care is None:
            raise Fault(f"the specification has no output {words.care}")
        check_fit(self.spec, self.impl, self.care)
        self.names = [*self.spec.inputs, *self.spec.registers]
        self.free = sum(width for box in self.impl.boxes for _, width in box.outs)
        self.trusted: Dict[str, None] = {}
        self.left: Dict[str, None] = {}  # What was not done, and why.

    def named(self, bits: Dict[str, str]) -> Dict[str, str]:
        """The vector of a line `input`, by the names that yosys has."""
        found = {name if name in self.names else known_as(name, self.names) or name: bit
                 for name, bit in bits.items()}
        for name in [*found, *self.names]:
            if name not in found or name not in self.names:
                raise Fault(f"the report and the texts do not both have {name}; {OTHER}")
        return found

    def spelt(self, bits: str) -> Dict[str, str]:
        """The vector of a line `vector`."""
        if len(bits) != len(self.names) or set(bits) - {"0", "1"}:
            raise Fault(f"`vector {bits[:40]}` does not have {len(self.names)} bits; {OTHER}")
        return dict(zip(self.names, bits))

    def wanted(self, found: List[Dict[str, str]]) -> List[Bits]:
        """What the specification gives at vectors, by yosys and by iverilog, which have to say the
        same; nothing where its care output is 0."""
        rows = [{key: {TRUE: "1", FALSE: "0"}.get(literal, "x") for key, literal in
                 Formula().values(self.spec, vector, None).items()} for vector in found]
        simulated = self.simulated("spec", self.spec, found, 0)
        for row, turns in zip(rows, simulated or [[row] for row in rows]):
            for key, bit in row.items():
                if turns[0][key] != bit or bit == "x":
                    raise Fault(f"iverilog and yosys do not find the same bit for {' '.join(key)} "
                                "of the specification")
        return [{} if self.care and row["output", self.care] != "1" else
                {key: bit for key, bit in row.items() if key != ("output", self.care)}
                for row in rows]

    def simulated(self, side: str, design: Design, found: List[Dict[str, str]], free: int
                  ) -> Optional[List[List[Bits]]]:
        """What iverilog says of a design; nothing where it does not read its text."""
        try:
            rows = simulate(self.folder, side, design, found, free)
        except Unread as why:
            self.left[f"iverilog does not read a text, and was not asked: {why}"] = None
            return None
        self.trusted["iverilog"] = None
        return rows

    def check_vector(self, error: Error, wrong: Wrong, bits: Dict[str, str]) -> str:
        """At this vector the two differ, whatever the boxes give: at what is named, if it is."""
        vector = self.named(bits)
        wanted, key = self.wanted([vector])[0], self.key(wrong)
        if not wanted:
            raise NotSo(f"{error.check}: the care output is not 1 at the vector")
        if key is not None:
            wanted = {key: wanted[key]}
        what = " ".join(key) if key else "some output or next state"
        rows = (self.simulated("impl", self.impl, [vector], self.free)
                if self.free <= MOST_SIMULATED else None)
        if rows is not None:
            is_shown = differ(rows[0], wanted)
            how = f"for all {len(rows[0])} outputs of the boxes, by simulation"
        else:
            formula = Formula()
            own = formula.values(self.impl, vector, None)
            formula.ask((own[name], bit) for name, bit in wanted.items())
            is_shown, how = self.is_refuted(formula), "whatever the boxes give, by clauses"
        if not is_shown:
            raise NotSo(f"{error.check}: {what} need not be wrong at the vector")
        return f"{error.check}: at the vector {what} is wrong {how}"

    def key(self, wrong: Wrong) -> Wrong:
        if wrong is None:
            return None
        name = self.spec.named(*wrong)
        if name is None or (wrong[0], name) == ("output", self.care):
            raise Fault(f"the texts do not both have {' '.join(wrong)}; {OTHER}")
        return wrong[0], name

    def is_refuted(self, formula: Formula) -> bool:
        by = refute(self.folder, formula)
        if by is not None:
            self.trusted["that the clauses are those of the texts (yosys, certify)"] = None
            self.trusted[by] = None
        return by is not None

    def check_vectors(self, error: Error) -> str:
        """No tables are right at these vectors."""
        found, formula = [self.spelt(bits) for bits in error.vectors], Formula()
        keys = [box.module if self.shared else box.path for box in self.impl.boxes]
        for vector, wanted in zip(found, self.wanted(found)):
            if wanted:
                own = formula.values(self.impl, vector, keys)
                formula.ask((own[key], bit) for key, bit in wanted.items())
        if not self.is_refuted(formula):
            raise NotSo(f"{error.check}: some tables are right at the {len(found)} vectors; "
                        "--shared, --care or --invariant, and the tops have to be those of the "
                        "report")
        return (f"{error.check}: no tables are right at the {len(found)} vectors "
                f"({len(formula.clauses)} clauses)")


def differ(turns: List[Bits], wanted: Bits) -> bool:
    """Whatever the boxes give, something has not the bit that it is to have."""
    if any(row[key] not in ("0", "1") for row in turns for key in wanted):
        raise Fault("the simulation has an undefined bit at the vector")
    return all(any(row[key] != bit for key, bit in wanted.items()) for row in turns)


def check_error(pair: Pair, error: Error) -> Optional[str]:
    """What was checked of an error; nothing where it shows nothing."""
    if error.input is not None:
        return pair.check_vector(error, error.input[1], error.input[2])
    if error.vectors:
        return pair.check_vectors(error)
    if error.check in ("input", "expand"):
        return None
    raise NotSo(f"{error.check}: the report shows no vector")


def certify(words: argparse.Namespace, folder: str) -> int:
    """The status of the command."""
    lines = read_report(words.report)
    if verdict(lines) != "error":
        raise Fault(f"{words.report}: the verdict is {verdict(lines)}{why_open(lines)}, and "
                    "certify is for errors")
    words.care = care_of_report("certify", words, lines, "vectors count where the invariant {} is "
                                "1; that each event keeps it is not checked")
    errors = errors_in(lines)
    if not errors:
        raise NotSo("the report has no check with an error")
    pair, checked = Pair(words, folder), 0
    for error in errors:
        said = check_error(pair, error)
        if said is None:
            print(f"{error.check}: the report shows nothing that could be checked; bbeq --from "
                  "expand --proof prints vectors that can")
        else:
            checked += 1
            print(said)
    for note in pair.left:
        print(note)
    print(f"{'certified' if checked else 'not certified'}: verdict error")
    for name in ["yosys", *pair.trusted] if checked else []:
        print(f"trusted: {version(name)}")
    return 0 if checked else NOTHING_SHOWN


def version(name: str) -> str:
    """A tool with its version, as it says it itself."""
    flag = {"yosys": "-V", "iverilog": "-V"}.get(name)
    if flag is None:
        return name
    done = subprocess.run([name, flag], capture_output=True, text=True, errors="replace",
                          check=False)
    return (done.stdout.splitlines() or [name])[0].split(" (git")[0].removesuffix(" ()")


def command() -> None:
    words = parse_words()
    try:
        with tempfile.TemporaryDirectory(prefix="certify") as folder:
            status = certify(words, os.path.realpath(folder))
    except NotSo as wrong:
        print(f"certify: not certified: {wrong}", file=sys.stderr)
        status = NOT_SO
    sys.stdout.flush()
    sys.exit(status)


def main() -> None:
    run_script("certify", command)
