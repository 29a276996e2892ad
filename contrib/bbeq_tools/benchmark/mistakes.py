"""Circuits with one wrong gate. Beside boxes it is one that they hide from a simulation with
unknown values, and that no contents mend: at some vectors there are none, by a solver."""
import random
from itertools import product
from typing import Dict, List, Optional, Tuple

from bbeq_tools.benchmark.circuits import NO_GATES, Circuit, Gate
from bbeq_tools.benchmark.solver import Solver
from bbeq_tools.cli import Fault

TRIES, MORE_TRIES = 24, 400
VECTORS = 4_096
BANK, MOST_HELD, MOST_CONFLICTS = 512, 96, 200
KINDS = ("and", "nand", "or", "nor", "xor", "xnor")
TRUE, FALSE = 0, 1  # Literals of the first variable.


def drawn_vectors(c: Circuit, draw: random.Random, count: int) -> Dict[str, int]:
    """Values of the sources at so many vectors; some are all 0, all 1, or mostly one of them."""
    sparse = draw.getrandbits(count) & draw.getrandbits(count)
    given = {}
    for text in c.sources:
        bits = draw.getrandbits(count)
        rare = bits & draw.getrandbits(count) & draw.getrandbits(count)
        given[text] = (bits & ~sparse | rare & sparse) & ~1 | 2
    return given


def with_mistake(c: Circuit, draw: random.Random) -> Circuit:
    """The same circuit with another gate in one place."""
    places = [at for at, gate in enumerate(c.gates) if gate.kind not in NO_GATES]
    at = draw.choice(places)
    kind, ins = c.gates[at]
    if kind == "mux":
        return c.changed(at, Gate(kind, (ins[0], ins[2], ins[1])))
    if kind == "not":
        return c.changed(at, Gate("buf", ins))
    return c.changed(at, Gate(draw.choice([word for word in KINDS if word != kind]), ins))


def rare_mistake(spec: Circuit, imp: Circuit, draw: random.Random) -> Circuit:
    """Of several the one that the fewest vectors show."""
    given, ones = drawn_vectors(spec, draw, VECTORS), (1 << VECTORS) - 1
    due = spec.values(given, ones)
    found: List[Tuple[int, int, Circuit]] = []
    for number in range(TRIES):
        wrong = with_mistake(imp, draw)
        shown = 0
        for text, value in wrong.values(given, ones).items():
            shown |= value ^ due[text]
        if shown:
            found.append((bin(shown).count("1"), number, wrong))
    if not found:
        raise Fault(f"{imp.name}: no wrong gate is seen")
    return min(found)[2]


def hidden_mistake(spec: Circuit, imp: Circuit, draw: random.Random) -> Circuit:
    """One that boxes hide and do not mend."""
    given, ones = drawn_vectors(spec, draw, VECTORS), (1 << VECTORS) - 1
    due = spec.values(given, ones)
    for _ in range(MORE_TRIES):
        wrong = with_mistake(imp, draw)
        known = wrong.known(given, ones)
        if any(one & ~due[text] or zero & due[text] for text, (one, zero) in known.items()):
            continue
        if Contents(spec, wrong, draw).are_refuted():
            return wrong
    raise Fault(f"{imp.name}: no wrong gate is hidden")


class Contents:
    """Looks for contents of the boxes by counterexamples: clauses over vectors at which those that
    it found before are wrong."""

    def __init__(self, spec: Circuit, imp: Circuit, draw: random.Random) -> None:
        self.spec, self.imp, self.draw, self.solver = spec, imp, draw, Solver()
        self.gates: Dict[Tuple[str, int, int], int] = {}
        self.tables: Dict[Tuple[int, int, int], int] = {}
        self.solver.add([self.solver.variable()])

    def are_refuted(self) -> bool:
        """Whether no contents are right; False, too, where this was not found out."""
        for _ in range(MOST_HELD):
            vector = self.wrong_vector()
            if vector is None:
                return False
            self.hold(vector)
            answer = self.solver.solve(MOST_CONFLICTS)
            if not answer:
                return answer is False
        return False

    def wrong_vector(self) -> Optional[Dict[str, int]]:
        """A vector at which the last contents are wrong, of some that are drawn."""
        given, ones = drawn_vectors(self.spec, self.draw, BANK), (1 << BANK) - 1
        last = self.solver.last
        tables = {key: last[literal >> 1] == literal for key, literal in self.tables.items()}
        due, wrong = self.spec.values(given, ones), 0
        for text, value in self.imp.values(given, ones, tables).items():
            wrong |= value ^ due[text]
        if not wrong:
            return None
        at = self.draw.choice([at for at in range(BANK) if wrong >> at & 1])
        return {text: value >> at & 1 for text, value in given.items()}

    def hold(self, vector: Dict[str, int]) -> None:
        """The clauses of a vector: the ends are those of the specification."""
        found: List[int] = []
        sources = {bit: vector[text] for text, bit in self.imp.sources.items()}
        for at, (kind, ins) in enumerate(self.imp.gates):
            if kind == "source":
                found.append(TRUE if sources[at] else FALSE)
            elif kind == "pin":
                box, pin = ins
                found.append(self.pin(box, pin, [found[bit] for bit in self.imp.boxes[box].ins]))
            else:
                found.append(self.gate(kind, [found[bit] for bit in ins]))
        due = self.spec.values(vector, 1)
        for text, bit in self.imp.ends.items():
            self.solver.add([found[bit] ^ (not due[text])])

    def pin(self, box: int, pin: int, ins: List[int]) -> int:
        """An output pin of a box: a bit of its table, or that of the row that comes."""
        choices = [(int(literal == TRUE),) if literal in (TRUE, FALSE) else (0, 1)
                   for literal in ins]
        rows = []
        for bits in product(*choices):
            key = box, pin, sum(bit << place for place, bit in enumerate(bits))
            if key not in self.tables:
                self.tables[key] = self.solver.variable()
            rows.append((bits, self.tables[key]))
        if len(rows) == 1:
            return rows[0][1]
        value = self.solver.variable()
        for bits, entry in rows:
            other = [literal ^ bit for literal, bit in zip(ins, bits)]  # All false in this row.
            self.solver.add([*other, value ^ 1, entry])
            self.solver.add([*other, value, entry ^ 1])
        return value

    def gate(self, kind: str, ins: List[int]) -> int:
        if kind in "01":
            return TRUE if kind == "1" else FALSE
        if kind in ("not", "buf"):
            return ins[0] ^ (kind == "not")
        if kind == "mux":
            choice, then, otherwise = ins
            return self.conjunction(self.conjunction(choice, then) ^ 1,
                                    self.conjunction(choice ^ 1, otherwise) ^ 1) ^ 1
        first, second = ins
        if kind in ("xor", "xnor"):
            return self.exclusive(first, second) ^ (kind == "xnor")
        if kind in ("and", "nand"):
            return self.conjunction(first, second) ^ (kind == "nand")
        return self.conjunction(first ^ 1, second ^ 1) ^ (kind == "or")

    def conjunction(self, a: int, b: int) -> int:
        a, b = sorted((a, b))
        if a in (TRUE, FALSE) or a >> 1 == b >> 1:
            return b if a == TRUE or a == b else FALSE
        key = "and", a, b
        if key not in self.gates:
            self.gates[key] = value = self.solver.variable()
            for clause in ([value ^ 1, a], [value ^ 1, b], [value, a ^ 1, b ^ 1]):
                self.solver.add(clause)
        return self.gates[key]

    def exclusive(self, a: int, b: int) -> int:
        a, b = sorted((a, b))
        if a in (TRUE, FALSE):
            return b ^ (a == TRUE)
        if a >> 1 == b >> 1:
            return FALSE if a == b else TRUE
        sign = (a ^ b) & 1
        key = "xor", a & ~1, b & ~1
        if key not in self.gates:
            _, one, other = key
            self.gates[key] = value = self.solver.variable()
            for clause in ([value ^ 1, one, other], [value ^ 1, one ^ 1, other ^ 1],
                           [value, one ^ 1, other], [value, one, other ^ 1]):
                self.solver.add(clause)
        return self.gates[key] ^ sign
