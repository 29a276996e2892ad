"""What `--rup` answers, against a plain checker: drawn formulas with drawn, right and damaged
additions, whose number is $CHECK_FORMULAS, proofs by cadical where it is installed, and the
program's own proofs."""
import os
import random
import shutil

from bbeq_tools.developing.drawn import drawn_pair
from bbeq_tools.developing.propagation import (additions_in, damaged, drawn_clauses, first_without,
                                               formula, has_model, parity_cycle, pigeons,
                                               random_formula, refutation, spelt)
from tests.tries import Tries, bbeq, read, run, script, write

FORMULAS = int(os.environ.get("CHECK_FORMULAS", "2000"))
OWN_PROOFS = 20


class Refutations(Tries):
    part = "refutations"

    def test_refutations(self):
        answers = [try_drawn(self, self.folder, seed) for seed in range(FORMULAS)]
        shares = {name: answers.count(name) for name in ("yes", "no")}
        self.note(f"drawn additions: {shares}, at least a fifth each",
                  all(5 * count >= FORMULAS for count in shares.values()))
        own_proofs(self, self.folder)
        if shutil.which("cadical"):
            for name, variables, clauses in real_formulas():
                try_real(self, self.folder, name, variables, clauses)


def answer(folder, variables, clauses, additions):
    return bbeq("--rup", write(folder, "f.cnf", formula(variables, clauses)),
                write(folder, "f.drat", spelt(additions)))


def agrees(tally, folder, name, variables, clauses, additions):
    """The program answers as the plain checker does, whose answer this is."""
    first = first_without(clauses, additions)
    due = (0, "rup yes\n") if first is None else (1, f"rup no {first}\n")
    done = answer(folder, variables, clauses, additions)
    tally.note(name, (done.status, done.out) == due, f"{due} is due; {done.why()}")
    return first


def try_drawn(tally, folder, seed):
    draw = random.Random(f"formula {seed}")
    variables = draw.randint(1, 8)
    clauses = drawn_clauses(draw, variables, draw.randint(0, 5 * variables + 2), (1, 2, 2, 3, 3))
    kind = ("drawn", "right", "damaged")[seed % 3]
    if kind == "drawn" or has_model(variables, clauses):
        additions = drawn_clauses(draw, variables, draw.randint(0, 6), (0, 1, 1, 2, 3))
    else:
        additions = refutation(clauses)
    if kind == "damaged":
        clauses, additions = damaged(draw, clauses, additions)
    first = agrees(tally, folder, f"--rup {kind} formula {seed}", variables, clauses, additions)
    if first is None:
        tally.note(f"--rup formula {seed} has no model", not has_model(variables, clauses))
    return "yes" if first is None else "no"


def real_formulas():
    for holes in range(3, 8):
        yield f"pigeons {holes}", *pigeons(holes)
    for length in (6, 40, 300):
        yield f"parity cycle {length}", *parity_cycle(length)
    for at in range(32):
        variables = 20 + 5 * (at % 16)
        yield f"random {variables} {at}", *random_formula(random.Random(f"random {at}"), variables,
                                                          4.9)


def try_real(tally, folder, name, variables, clauses):
    cnf, proof = write(folder, "real.cnf", formula(variables, clauses)), os.path.join(folder,
                                                                                      "real.drat")
    if run(["cadical", "-q", "--no-binary", cnf, proof]).status != 20:
        return
    done = bbeq("--rup", cnf, proof)
    tally.note(f"--rup cadical {name}", (done.status, done.out) == (0, "rup yes\n"), done.why())
    additions = additions_in(read(proof))
    if len(additions) < 300:
        draw = random.Random(name)
        for at in range(5):
            agrees(tally, folder, f"--rup cadical {name}, damaged {at}", variables,
                   *damaged(draw, clauses, additions))


def own_proofs(tally, folder):
    """The refutations of drawn pairs, as `drat` writes them."""
    found = seed = 0
    while found < OWN_PROOFS:
        seed += 1
        spec, implementation = drawn_pair(seed)
        report = bbeq(write(folder, "s.v", spec), write(folder, "i.v", implementation), "--from",
                      "expand", "--proof")
        if report.status != 1:
            continue
        found += 1
        names = os.path.join(folder, "own")
        done = run([script("drat"), write(folder, "report", report.out), "-o", names])
        done = done if done.status else bbeq("--rup", names + ".cnf", names + ".drat")
        tally.note(f"--rup the proof of pair {seed}", (done.status, done.out) == (0, "rup yes\n"),
                   done.why())
