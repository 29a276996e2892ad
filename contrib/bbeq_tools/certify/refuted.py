"""Has a solver refute clauses, and a checker of its own look at the solver's proof."""
import os
import shutil
import subprocess
import sys
from typing import Dict, List, Optional

from bbeq_tools.certify.formula import Formula
from bbeq_tools.cli import Fault, python_call

UNSATISFIABLE, SATISFIABLE = 20, 10  # Statuses of solvers.


def refute(folder: str, formula: Formula) -> Optional[str]:
    """Who showed that the clauses have no model; nothing where they have one."""
    paths = [os.path.join(folder, f"formula.{kind}") for kind in ("cnf", "drat", "lrat")]
    with open(paths[0], "w", encoding="ascii") as file:
        file.write(formula.text())
    if shutil.which("cadical"):
        return by_cadical(formula.clauses, *paths)
    if not shutil.which("minisat"):
        raise Fault("no solver is installed (Debian: apt-get install cadical)")
    if not is_refuted(["minisat", "-verb=0", paths[0]]):
        return None
    return "minisat, which was believed, since it writes no proof"


def run(words: List[str]) -> "subprocess.CompletedProcess[str]":
    return subprocess.run(words, capture_output=True, text=True, errors="replace", check=False)


def is_refuted(words: List[str]) -> bool:
    done = run(words)
    if done.returncode not in (UNSATISFIABLE, SATISFIABLE):
        raise Fault(f"{words[0]} ended with status {done.returncode}")
    return done.returncode == UNSATISFIABLE


def by_cadical(clauses: List[List[int]], cnf: str, drat: str, lrat: str) -> Optional[str]:
    writes_lrat = "--lrat" in run(["cadical", "--help"]).stdout
    solve = ["cadical", "-q", "--no-binary", cnf]
    if shutil.which("drat-trim"):
        if not is_refuted([*solve, drat]):
            return None
        return checked(["drat-trim", cnf, drat], "cadical, whose proof drat-trim checked")
    if not is_refuted([*solve, "--lrat", lrat] if writes_lrat else [*solve, drat]):
        return None
    if not writes_lrat:
        write_lrat(clauses, drat, lrat)
    if shutil.which("lrat-check"):
        return checked(["lrat-check", cnf, lrat], "cadical, whose proof lrat-check checked")
    return checked([*python_call("report.lrat"), cnf, lrat],
                   "cadical, whose proof contrib/lrat checked")


def checked(words: List[str], said: str) -> str:
    done = run(words)
    if done.returncode or "VERIFIED" not in done.stdout.upper() or "NOT V" in done.stdout.upper():
        print(f"certify: {(done.stderr + done.stdout).strip()[:200]}", file=sys.stderr)
        raise Fault(f"{said.split()[2]} proof was not verified")
    return said


# What cadical writes has clauses without the reasons that an LRAT checker asks for.


def write_lrat(clauses: List[List[int]], drat: str, lrat: str) -> None:
    """Finds, for each clause that a proof adds, those by which it follows."""
    reasons = Reasons(clauses)
    with open(drat, encoding="ascii") as file:
        lines = [line.split() for line in file]
    added: List[List[int]] = [[int(word) for word in words[:-1]] for words in lines
                              if words and words[0] != "d"]
    empty: List[int] = []
    with open(lrat, "w", encoding="ascii") as file:
        for clause in [*added, empty]:
            clause = empty if reasons.clash else clause
            hints = reasons.hints(clause)
            number = len(reasons.clauses) + 1
            file.write(" ".join(map(str, [number, *clause, 0, *hints, 0])) + "\n")
            if not clause:
                return
            reasons.add(clause)


class Reasons:
    """Unit propagation over clauses with two watched literals each; what follows from the clauses
    alone is kept."""

    def __init__(self, clauses: List[List[int]]) -> None:
        self.clauses: List[List[int]] = []  # Number N is at N - 1.
        self.watched: Dict[int, List[int]] = {}
        self.reason: Dict[int, int] = {}  # True literals in the order in which they came.
        self.clash = 0
        for clause in clauses:
            self.add(clause)

    def add(self, clause: List[int]) -> None:
        open_first = sorted(dict.fromkeys(clause), key=lambda literal: -literal in self.reason)
        self.clauses.append(open_first)
        number = len(self.clauses)
        for literal in open_first[:2]:
            self.watched.setdefault(literal, []).append(number)
        is_open = [literal for literal in open_first[:2] if -literal not in self.reason]
        if self.clash:
            return
        if not is_open:
            self.clash = number
        elif len(is_open) == 1 and is_open[0] not in self.reason:
            self.reason[is_open[0]] = number
            self.clash = self.propagate([is_open[0]])

    def propagate(self, work: List[int]) -> int:
        """Takes what follows of literals that are true; gives a clause that is false, or 0."""
        for literal in work:
            watching = self.watched.get(-literal, [])
            kept: List[int] = []
            for at, number in enumerate(watching):
                clash = self.visit(number, -literal, kept, work)
                if clash:
                    self.watched[-literal] = kept + watching[at + 1:]
                    return number
            self.watched[-literal] = kept
        return 0

    def visit(self, number: int, false: int, kept: List[int], work: List[int]) -> bool:
        """Looks at a clause one of whose watched literals is false; true where all are."""
        clause = self.clauses[number - 1]
        if clause[0] == false and len(clause) > 1:
            clause[0], clause[1] = clause[1], clause[0]
        for at in range(2, len(clause)):
            if clause[0] in self.reason:
                break
            if -clause[at] not in self.reason:
                clause[1], clause[at] = clause[at], clause[1]
                self.watched.setdefault(clause[1], []).append(number)
                return False
        kept.append(number)
        if clause[0] in self.reason:
            return False
        if -clause[0] in self.reason:
            return True
        self.reason[clause[0]] = number
        work.append(clause[0])
        return False

    def hints(self, clause: List[int]) -> List[int]:
        """The clauses by which this one follows, in the order in which they are used."""
        kept, clash = len(self.reason), self.clash
        denied = [-literal for literal in dict.fromkeys(clause)]
        if not clash:
            clash = self.denied(denied)
        if not clash:
            raise Fault("a clause of the solver's proof does not follow by propagation")
        found = self.collected(clash, set(denied))
        for literal in list(self.reason)[kept:]:
            del self.reason[literal]
        return found

    def denied(self, literals: List[int]) -> int:
        for literal in literals:
            if -literal in self.reason:
                return self.reason[-literal]
        fresh = [literal for literal in literals if literal not in self.reason]
        self.reason.update({literal: 0 for literal in fresh})
        return self.propagate(fresh)

    def collected(self, clash: int, denied: "set[int]") -> List[int]:
        """The reasons of all that the false clause rests on, the earliest first."""
        needed, found = {-literal for literal in self.clauses[clash - 1]}, [clash]
        for literal, number in reversed(list(self.reason.items())):
            if literal in needed and literal not in denied and number and number != clash:
                found.append(number)
                needed.update(-other for other in self.clauses[number - 1] if other != literal)
        return found[::-1]
