"""Writes the refutation of a report as DIMACS with LRAT and DRAT proofs.

With `--proof` bbeq prints the clauses that the check `expand` refuted and the resolution steps.
Checkers of other hands read other formats: this script writes OUT.cnf, OUT.lrat (for `lrat` beside
it, or lrat-check) and OUT.drat (for drat-trim). A clause that bbeq counts from 0 has one more as
its number there."""
import argparse
from typing import Any, Dict, FrozenSet, List, Tuple

from bbeq_tools.cli import Fault, Output, run_script
from bbeq_tools.report.reports import read_report
from bbeq_tools.words import Words

Clause = FrozenSet[int]
Step = Tuple[int, List[Tuple[int, int]]]  # The first clause, and pairs of clause and variable.


def parse_words() -> argparse.Namespace:
    parser = Words(prog="drat", description=(__doc__ or "").split("\n\n")[0])
    parser.add_argument("report", metavar="REPORT",
                        help="a file with what bbeq printed with --proof; - is standard input")
    parser.add_argument("-o", "--output", default="proof", metavar="OUT",
                        help="the names before .cnf, .lrat, .drat (default proof)")
    return parser.parse_args()


def proof_lines(path: str) -> Tuple[List[Clause], List[Step]]:
    """The clauses, as sets, and the steps, each a first clause and its pairs of clause and
    variable."""
    clauses: List[Clause] = []
    steps: List[Any] = []
    for line in read_report(path):
        words = line.split()
        try:
            if words[:1] == ["clause"]:
                clauses.append(frozenset(int(word) for word in words[2:]))
                number = len(clauses) - 1
            elif words[:1] == ["step"]:
                pairs = [tuple(int(part) for part in word.split("/")) for word in words[3:]]
                steps.append((int(words[2]), pairs))
                number = len(clauses) + len(steps) - 1
            else:
                continue
            if int(words[1]) != number or any(len(pair) != 2 for pair in (steps[-1][1] if words[0]
                                                                          == "step" else ())):
                raise ValueError
        except (ValueError, IndexError):
            raise Fault(f"{path}: `{line[:60]}` is no line of a proof in its place") from None
    if not clauses or not steps:
        raise Fault(f"{path}: the report has no proof; give bbeq --proof, and the check `expand` "
                    "has to find the mistake")
    return clauses, steps


def resolve(clause: Clause, other: Clause, variable: int, number: int) -> Clause:
    """The resolvent: the variable's literal taken out of each of the two clauses, with opposite
    signs."""
    for literal in (variable, -variable):
        if literal in clause and -literal in other:
            return (clause - {literal}) | (other - {-literal})
    raise Fault(f"step {number} does not resolve by variable {variable}")


def derived(clauses: List[Clause], steps: List[Step]) -> List[Clause]:
    """All clauses, those of the steps behind the given ones."""
    found = list(clauses)
    for first, pairs in steps:
        number = len(found)
        if max([first, *[clause for clause, _ in pairs]]) >= number:
            raise Fault(f"step {number} uses a clause that does not stand before it")
        clause = found[first]
        for other, variable in pairs:
            clause = resolve(clause, found[other], variable, number)
        found.append(clause)
    if found[-1]:
        raise Fault("the last step is not the empty clause")
    return found


def is_tautology(clause: Clause) -> bool:
    return any(-literal in clause for literal in clause)


def hints(clause: Clause, candidates: List[int], clauses: List[Clause], number: int) -> List[int]:
    """The candidates in an order in which each gives one more literal and the last is false, once
    the clause is denied."""
    false, chosen, left = set(clause), [], candidates
    while left:
        later = []
        for candidate in left:
            literals = clauses[candidate]
            open_ones = [literal for literal in literals if literal not in false]
            if any(-literal in false for literal in open_ones) or is_tautology(literals):
                continue
            if len(open_ones) > 1:
                later.append(candidate)
                continue
            chosen.append(candidate)
            if not open_ones:
                return chosen
            false.add(-open_ones[0])
        if len(later) == len(left):
            break
        left = later
    raise Fault(f"step {number} does not follow by propagation")


def spelt(clause: Clause) -> str:
    return "".join(f"{literal} "
                   for literal in sorted(clause, key=lambda literal: (abs(literal), literal)))


def write_all(output: str, outputs: Dict[str, Output], clauses: List[Clause],
              steps: List[Step]) -> None:
    found = derived(clauses, steps)
    variables = max((abs(literal) for clause in found for literal in clause), default=0)
    lrat, drat = [], []
    for at, (first, pairs) in enumerate(steps):
        number = len(clauses) + at
        clause = found[number]
        if is_tautology(clause):
            continue
        used = hints(clause, [*[other for other, _ in reversed(pairs)], first], found, number)
        drat.append(f"{spelt(clause)}0\n")
        lrat.append(f"{number + 1} {spelt(clause)}0 "
                    f"{' '.join(str(other + 1) for other in used)} 0\n")
    outputs["cnf"].write(f"p cnf {variables} {len(clauses)}\n" + "".join(f"{spelt(clause)}0\n"
                                                                         for clause in clauses))
    outputs["lrat"].write("".join(lrat))
    outputs["drat"].write("".join(drat))
    print(f"{output}.cnf: {len(clauses)} clauses of {variables} variables; {output}.lrat, "
          f"{output}.drat: {len(steps)} steps")


def command() -> None:
    words = parse_words()
    outputs = {kind: Output(f"{words.output}.{kind}", [words.report], "ascii")
               for kind in ("cnf", "lrat", "drat")}
    write_all(words.output, outputs, *proof_lines(words.report))


def main() -> None:
    run_script("drat", command)
