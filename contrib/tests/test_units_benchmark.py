"""Unit tests of the circuits of `benchmark`, of their mistakes, and of what is said of a run."""
import itertools
import os
import random
import signal
import tempfile
import unittest

from bbeq_tools.benchmark.arithmetic import ADDERS, adder, count_of_ones, multiplier
from bbeq_tools.benchmark.benchmark import row, summary
from bbeq_tools.benchmark.choices import (alu_lanes, case_statement, comparator, priority_encoder,
                                          rotator)
from bbeq_tools.benchmark.circuits import Circuit
from bbeq_tools.benchmark.folders import Listed, read_pairs
from bbeq_tools.benchmark.measures import (Limits, Measure, abc_answer_of, answer_of, least,
                                           measured)
from bbeq_tools.benchmark.mistakes import Contents, drawn_vectors
from bbeq_tools.benchmark.pairs import drawn, holed_plans, plain_plans, small_plans
from bbeq_tools.benchmark.solver import Solver
from bbeq_tools.benchmark.states import register_file
from bbeq_tools.cli import Fault
from bbeq_tools.verilog.flat import Flat

VECTORS = 200


def number(ends, name, at):
    """The number that the bits of a word spell at one of the vectors."""
    found = 0
    for text, value in ends.items():
        word, _, index = text.partition("[")
        if word == name:
            found |= (value >> at & 1) << int(index[:-1] or 0)
    return found


class Numbers(unittest.TestCase):
    """What circuits give is what Python gives for the numbers."""

    def compare(self, circuit, due):
        """`due` has the words that are due by the words that are given."""
        given = drawn_vectors(circuit, random.Random(3), VECTORS)
        ends = circuit.values(given, (1 << VECTORS) - 1)
        words = {text.partition("[")[0] for text in circuit.sources}
        for at in range(VECTORS):
            for name, value in due({word: number(given, word, at) for word in words}).items():
                self.assertEqual(number(ends, name, at), value, (circuit.name, name))

    def test_sums(self):
        for kind, width in itertools.product(ADDERS, (1, 3, 4, 5, 16, 17, 64)):
            self.compare(adder(kind, width), lambda x, width=width: {
                "s": (x["a"] + x["b"] + x["ci"]) % (1 << width),
                "co": (x["a"] + x["b"] + x["ci"]) >> width})

    def test_products(self):
        for kind, width in itertools.product(("array", "wallace"), (2, 3, 4, 7, 10)):
            self.compare(multiplier(kind, width), lambda x: {"p": x["a"] * x["b"]})

    def test_counts(self):
        for kind, width in itertools.product(("up", "tree"), (3, 7, 8, 64)):
            self.compare(count_of_ones(kind, width), lambda x: {"n": bin(x["a"]).count("1")})

    def test_rotations(self):
        for order, power in itertools.product(("rising", "falling"), (3, 5)):
            width = 1 << power
            self.compare(rotator(order, width), lambda x, width=width: {
                "y": (x["a"] << x["by"] | x["a"] >> width - x["by"]) % (1 << width)})

    def test_comparisons(self):
        for kind in ("line", "tree"):
            self.compare(comparator(kind, 7), lambda x: {
                "less": x["a"] < x["b"], "equal": x["a"] == x["b"], "greater": x["a"] > x["b"]})

    def test_priorities(self):
        for kind in ("line", "tree"):
            self.compare(priority_encoder(kind, 32), lambda x: {
                "some": x["r"] > 0, "first": max(0, (x["r"] & -x["r"]).bit_length() - 1)})

    def test_lanes(self):
        def due(x):
            a, b = x["a1"], x["b1"]
            results = [a + b, a - b, a & b, a | b, a ^ b, a < b, a << 1, a >> 1]
            return {"y1": results[x["op"]] % 256}
        for kind in ("apart", "shared"):
            self.compare(alu_lanes(kind, 2), due)

    def test_structures(self):
        """Tables, memories and machines are the same in both structures."""
        for plan in plain_plans():
            spec, imp = plan.specification(), plan.implementation()
            if not plan.is_wrong and not plan.is_synthesised and spec.size() < 9_000:
                given, ones = drawn_vectors(spec, random.Random(1), VECTORS), (1 << VECTORS) - 1
                self.assertEqual(spec.values(given, ones), imp.values(given, ones), plan.name)

    def test_file(self):
        """A word that is written takes the data, and the others stay."""
        def due(x):
            words = [x["r0"], x["r1"]]
            found = {"y0": words[x["at0"]]}
            if x["write"]:
                words[x["goal"]] = x["data"]
            return found | {"r0": words[0], "r1": words[1]}
        self.compare(register_file("products", 1, 4, 1), due)

    def test_contents(self):
        """What boxes lack makes the right pairs agree."""
        for plan in holed_plans():
            spec, imp = plan.specification(), plan.implementation()
            given, ones = drawn_vectors(spec, random.Random(2), VECTORS), (1 << VECTORS) - 1
            self.assertEqual(spec.values(given, ones), imp.values(given, ones, imp.tables()),
                             plan.name)
            pins = [len(box.ins) + box.outs for box in imp.boxes]
            self.assertTrue(1 <= len(pins) <= 16 and 2 <= min(pins) <= max(pins) <= 12, plan.name)


class Texts(unittest.TestCase):
    def test_plans(self):
        """Forty of each kind, with names of their own; five of the first are wrong."""
        first, second = plain_plans(), holed_plans()
        self.assertEqual((len(first), len(second)), (40, 40))
        self.assertEqual(len({plan.name for plan in first + second}), 80)
        self.assertEqual([sum(plan.is_wrong for plan in plans) for plans in (first, second)],
                         [5, 20])

    def test_same(self):
        for plan in small_plans():
            one, other = drawn(plan), drawn(plan)
            self.assertEqual((one.specification.text(), one.implementation.text()),
                             (other.specification.text(), other.implementation.text()))

    def test_read(self):
        """A text has the ports, registers and gates of its circuit, by another reader."""
        with tempfile.TemporaryDirectory() as folder:
            for circuit in (case_statement("products", 4, 2), register_file("tree", 2, 3),
                            drawn(small_plans()[-1]).implementation):
                path = os.path.join(folder, "t.v")
                with open(path, "w", encoding="ascii") as file:
                    file.write(circuit.text())
                flat = Flat(path, circuit.name)
                self.assertEqual({*flat.inputs, *flat.states}, set(circuit.sources))
                self.assertEqual({*flat.outputs, *flat.states}, set(circuit.ends))
                self.assertEqual(len(flat.boxes), len(circuit.boxes))


class Mistakes(unittest.TestCase):
    def test_solver(self):
        """Drawn formulas, against all assignments."""
        draw = random.Random(9)
        for _ in range(300):
            count = draw.randrange(2, 8)
            clauses = [[draw.randrange(2 * count) for _ in range(draw.randrange(1, 4))]
                       for _ in range(draw.randrange(1, 30))]
            solver = Solver()
            for _ in range(count):
                solver.variable()
            for clause in clauses:
                solver.add(clause)
            due = any(all(any(bits >> (literal >> 1) & 1 != literal & 1 for literal in clause)
                          for clause in clauses) for bits in range(1 << count))
            self.assertEqual(solver.solve(1_000), due, clauses)
            if due:
                self.assertTrue(all(any(literal in solver.last for literal in clause)
                                    for clause in clauses), clauses)

    def test_holes(self):
        """Four holes for five pigeons: refuted, or given up."""
        for most, due in ((100_000, False), (3, None)):
            solver, holes = Solver(), 4
            at = [[solver.variable() for _ in range(holes)] for _ in range(holes + 1)]
            for literals in at:
                solver.add(literals)
            for (one, other), hole in itertools.product(itertools.combinations(at, 2),
                                                        range(holes)):
                solver.add([one[hole] ^ 1, other[hole] ^ 1])
            self.assertIs(solver.solve(most), due)

    def test_known(self):
        """What is known with boxes unknown is so with any contents."""
        draw, ones = random.Random(7), (1 << VECTORS) - 1
        for plan in holed_plans()[::5]:
            imp = plan.implementation()
            given = drawn_vectors(imp, draw, VECTORS)
            tables = {key: draw.random() < 0.5 for key in imp.tables()}
            ends = imp.values(given, ones, tables)
            for text, (one, zero) in imp.known(given, ones).items():
                self.assertEqual((one & ~ends[text], zero & ends[text]), (0, 0), plan.name)

    def test_refuted(self):
        """Contents are refuted where none of all is right, for one box of two pins."""
        for kinds, due in ((("and", "xor"), False), (("or", "xor"), False),
                           (("and", "xnor"), False), (("xor", "and"), True),
                           (("xor", "or"), True), (("xor", "nand"), True)):
            found = Contents(*boxed_pair(*kinds), random.Random(1)).are_refuted()
            self.assertEqual(found, due, kinds)


def boxed_pair(spec_kind, kind):
    """A gate over c and a gate of a and b; in the implementation the second is a box."""
    circuits = []
    for has_boxes in (False, True):
        c = Circuit("t", has_boxes)
        a, b, other = c.bit("a"), c.bit("b"), c.bit("c")
        inner = c.box("bx", [a, b], lambda circuit, ins: [circuit.add(spec_kind, *ins)])
        c.drive("y", [c.add(kind if has_boxes else "xor", inner[0], other)])
        circuits.append(c)
    return circuits


LIMITS = Limits(1, 2_000_000_000, 3)


class Measures(unittest.TestCase):
    def test_answers(self):
        report = "rung ternary none\nrung expand error\nverdict error\n"
        self.assertEqual(answer_of(1, report), ("error", "expand error"))
        self.assertEqual(answer_of(2, "refused pair pins\n"), ("refused pair pins", ""))
        self.assertEqual(answer_of(-signal.SIGXCPU, ""), ("late", ""))
        self.assertEqual(answer_of(5, ""), ("no memory", ""))
        self.assertEqual(answer_of(-signal.SIGILL, ""), ("status -4", ""))
        self.assertEqual(abc_answer_of(0, "Networks are NOT EQUIVALENT.  Time"), ("error", ""))
        self.assertEqual(abc_answer_of(1, "nothing"), ("no answer", ""))
        self.assertEqual(abc_answer_of(-signal.SIGXCPU, ""), ("late", ""))

    def test_wrong(self):
        for answer, due, wrong in (
                ("error", "error", False), ("error", "repairable", True),
                ("repairable", "error", True), ("open", "error", False), ("late", "error", False),
                ("no memory", "repairable", False), ("refused pair pins", "error", True),
                ("status 0", "repairable", True)):
            self.assertEqual(Measure(0, 0, answer, "").is_wrong(due), wrong, (answer, due))

    def test_limit(self):
        """A run that does not end is ended by the kernel, and not made again."""
        found = least(["sh", "-c", "while :; do :; done"], LIMITS, answer_of)
        self.assertEqual(found.answer, "late")
        self.assertLess(found.seconds, 2.5)

    def test_measured(self):
        seconds, memory, status, text = measured(["sh", "-c", "echo hi; exit 3"], LIMITS)
        self.assertEqual((status, text), (3, "hi\n"))
        self.assertTrue(seconds < 1 and memory > 100_000)

    def test_lines(self):
        pair = Listed("f", "adder", "repairable", (5, 12), 1)
        measures = [Measure(1.5, 3_000_000, "error", "expand error"),
                    Measure(20, 9_000_000, "late", "")]
        self.assertEqual(row(pair, "expand", measures).split(),
                         "adder repairable 5+12 1 expand 1.50 3 error by expand error WRONG "
                         "20.00 9 late".split())
        self.assertEqual(summary("expand", [measures]), "expand: 1 of 1 decided, 0 late, 1.5 s; "
                         "0 of 1 decided, 1 late, 20.0 s")

    def test_list(self):
        pair = Listed("f", "adder", "repairable", (5, 12), 1)
        with tempfile.TemporaryDirectory() as folder:
            for text, right in ((pair.line(), True), ("a b = error", False)):
                with open(os.path.join(folder, "list"), "w", encoding="ascii") as file:
                    file.write(f"{text}\n")
                if right:
                    self.assertEqual(read_pairs(folder), [pair._replace(folder=folder)])
                else:
                    self.assertRaisesRegex(Fault, "line 1 is none", read_pairs, folder)
