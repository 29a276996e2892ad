"""Unit tests of what is read of a report, and of the texts that are made of it."""
import os
import re
import tempfile
import unittest

from bbeq_tools.cli import Fault
from bbeq_tools.report import lrat
from bbeq_tools.report.contents import assign_lines, case_lines, casez_lines, decided, tree
from bbeq_tools.report.sums import expression
from bbeq_tools.report.drat import proof_lines, resolve
from bbeq_tools.report.printed import on_terminal
from bbeq_tools.report.reports import (OTHER, other_texts, read_filled, read_report, tables,
                                       vectors, verdict)
from bbeq_tools.verilog.language import Reader
from tests.tries import SMALL_PROOF

BOX = Reader("module b(a, y, z); input [1:0] a; output y, z; endmodule").modules()[0]
FILLED = "rung input repair\ntable u o 01\nverdict repairable\nfill\nmodule filled(a);\nendmodule\n"


class Files(unittest.TestCase):
    def setUp(self):
        place = tempfile.TemporaryDirectory()
        self.addCleanup(place.cleanup)
        self.path = os.path.join(place.name, "report")

    def put(self, text):
        with open(self.path, "w", encoding="latin-1") as file:
            file.write(text)
        return self.path


class Reports(Files):
    def test_lines(self):
        lines = read_report(self.put(FILLED))
        self.assertEqual(lines, FILLED.splitlines()[:3])
        self.assertEqual(verdict(lines), "repairable")

    def test_faults(self):
        for text, wanted in (("", "is empty"), ("refused usage\n", "was refused"),
                             ("unread spec\n", "was refused"), ("rung input none\n", "no verdict")):
            with self.assertRaisesRegex(Fault, wanted):
                read_report(self.put(text))
        with self.assertRaisesRegex(Fault, "No such file"):
            read_report(self.path + "none")

    def test_tables(self):
        self.assertEqual(tables(["rung input repair", "table u o[1] 01", "table v q 0011",
                                 "table u o[0] 10"]),
                         {"u": [("o[1]", "01"), ("o[0]", "10")], "v": [("q", "0011")]})
        long = "table u o[1] " + "01" * 4_096
        self.assertEqual(on_terminal(long[:-4_096]), long[:-4_096])
        self.assertRegex(on_terminal(long + "\n"), r"^table u o\[1\] \.\. \(8,192 bits, .*\)\n$")
        for line in ("table", "table u o", "table u o 012", "table u o 01 1", on_terminal(long)):
            with self.assertRaisesRegex(Fault, "is no table line"):
                tables([line])

    def test_vectors(self):
        lines = ["rung ternary error", "output y[1]", "input a=0 b[0]=1", "rung local error",
                 "next q", "input a=1 b[0]=1"]
        self.assertEqual(vectors(lines),
                         [("ternary", ("output", "y[1]"), {"a": "0", "b[0]": "1"}),
                          ("local", ("next", "q"), {"a": "1", "b[0]": "1"})])
        for line in ("input a", "input a=2", "input a=0 a=1", "rung", "output "):
            with self.assertRaises(Fault):
                vectors([line])

    def test_filled(self):
        self.assertEqual(read_filled(self.put(FILLED)), "module filled(a);\nendmodule\n")
        for text, wanted in ((FILLED[:-10], "is cut"), (FILLED[:-1], "is cut"),
                             (FILLED[:FILLED.index("fill\n")], "run bbeq with --fill"),
                             (FILLED.replace("repairable", "error"), "the verdict is error"),
                             ("verdict repairable\nfill toolarge\n", "too large"),
                             ("verdict repairable\nfill clash a\n", "would be called a:")):
            with self.assertRaisesRegex(Fault, wanted):
                read_filled(self.put(text))

    def test_made(self):
        self.assertEqual(other_texts(["rung input repair"]), OTHER)
        self.assertIn("`made 8`", other_texts(["make 8"]))


class Contents(unittest.TestCase):
    """The AND and the exclusive or of two pins, row by row from 00 on."""

    def test_case(self):
        self.assertEqual(list(case_lines(BOX, ["0001", "0110"])), [
            "  function [1:0] contents;", "    input [1:0] pins;", "    begin",
            "      contents = 2'bxx;", "      case (pins)", "        2'b00: contents = 2'b00;",
            "        2'b01: contents = 2'b01;", "        2'b10: contents = 2'b01;",
            "        2'b11: contents = 2'b10;", "      endcase", "    end", "  endfunction",
            "  assign {y, z} = contents(a);"])

    def test_default(self):
        lines = list(case_lines(BOX, ["0-01", "0-10"]))
        self.assertIn("        default: contents = {2{^pins ^ ^pins}};", lines)
        self.assertFalse(any("2'b01:" in line for line in lines))

    def test_casez(self):
        self.assertEqual(list(casez_lines(BOX, ["0001", "1111"]))[3:-2], [
            "      contents = 2'bxx;", "      casez (pins)", "        2'b11: contents[1] = 1'b1;",
            "        2'b0?, 2'b?0: contents[1] = 1'b0;", "      endcase",
            "      contents[0] = 1'b1;", "    end"])

    def test_decided(self):
        """All patterns that decide an output are there, and each row is in one."""
        for bits in ("00110101", "0-1-1001", "---1--0-"):
            ones, zeros = (re.findall(r"3'b([01?]+)", part)
                           for part in "".join(decided(3, bits, "o")).split(": o = 1'b1;"))
            for row, bit in enumerate(bits):
                places = [any(all(digit in ("?", own) for digit, own in zip(cube, f"{row:03b}"))
                              for cube in found) for found in (ones, zeros)]
                self.assertTrue(any(places) if bit == "-" else places == [bit == "1", bit == "0"])
        self.assertIn("3'b?11", "".join(decided(3, "00110101", "o")))

    def test_assign(self):
        self.assertEqual(list(assign_lines(BOX, ["0001", "0110"])),
                         ["  assign y = a[1] ? a[0] : 1'b0;", "  assign z = a[1] ? ~a[0] : a[0];"])

    def test_sums(self):
        for names, bits, text in (("ab", "0001", "a & b"), ("ab", "1110", "~a | ~b"),
                                  ("ab", "0110", "a ^ b"), ("ab", "1001", "a ^ ~b"),
                                  ("abc", "01101001", "a ^ b ^ c"),
                                  ("abc", "00110101", "a ? c : b"),
                                  ("abc", "0---1---", "a"), ("ab", "1111", "1'b1"),
                                  ("ab", "0-0-", "1'b0"),
                                  ("abc", "00010111", "a ? (b | c) : (b & c)"),
                                  ("abcd", "0001000100011111", "(a & b) | (c & d)")):
            self.assertEqual(expression(list(names), bits), text)

    def test_tree(self):
        for bits, text in (("0000", "1'b0"), ("1111", "1'b1"), ("0011", "a"), ("1010", "~b"),
                           ("0101", "b")):
            self.assertEqual(tree(["a", "b"], bits), text)


class Proofs(Files):
    def test_steps(self):
        clauses, steps = proof_lines(self.put(SMALL_PROOF))
        self.assertEqual(clauses, [frozenset({1}), frozenset({-1, 2}), frozenset({-2})])
        self.assertEqual(steps, [(0, [(1, 1), (2, 2)])])
        with self.assertRaisesRegex(Fault, "in its place"):
            proof_lines(self.put(SMALL_PROOF.replace("clause 1", "clause 2", 1)))

    def test_resolvent(self):
        self.assertEqual(resolve(frozenset({1, 2}), frozenset({-1, 3}), 1, 4), {2, 3})
        with self.assertRaisesRegex(Fault, "step 4 does not resolve by variable 2"):
            resolve(frozenset({1, 2}), frozenset({-1, 3}), 2, 4)

    def test_hints(self):
        """From (1 or 2) and (not 1 or 2) follows 2, and from the second alone nothing does."""
        clauses = {1: [1, 2], 2: [-1, 2]}
        self.assertTrue(lrat.follows([2], [1, 2], clauses))
        self.assertFalse(lrat.follows([2], [2], clauses))
        self.assertFalse(lrat.follows([1], [1, 2], clauses))
        self.assertFalse(lrat.follows([2], [3], clauses))

    def test_formula(self):
        self.assertEqual(lrat.read_cnf(self.put("c x\np cnf 2 2\n1 2 0 -1\n0\n")),
                         {1: [1, 2], 2: [-1]})
        for text in ("1 0\n", "p cnf 1 2\n1 0\n", "p cnf 1 1\n1\n"):
            with self.assertRaises(lrat.Wrong):
                lrat.read_cnf(self.put(text))
