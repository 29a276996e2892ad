"""Unit tests of the modules that read and write texts of the language."""
import os
import tempfile
import unittest

from bbeq_tools.cli import Fault
from bbeq_tools.verilog.language import (Net, Reader, bit_text, number_of, read_modules, tokens,
                                         top_of, written)
from bbeq_tools.verilog.words import (contexts, meaning, reduction, result_width, taken_at)

TWO = """module m(a, y); input [0:2] a; output y; (* keep = "1;)" *) wire w = a[1];
  assign y = w & ~a[0] | a[2]; endmodule
module n(input [3:0] b, output reg c); always @(posedge b[3]) c <= b[2:1] == 2'd3; endmodule
"""


class Tokens(unittest.TestCase):
    def test_kinds(self):
        found = [(token.kind, token.text) for token in tokens("wire \\b+c ;/* x */ 4'hF <= 12")]
        self.assertEqual(found, [("word", "wire"), ("name", "b+c"), ("mark", ";"),
                                 ("sized", "4'hF"), ("mark", "<="), ("plain", "12")])

    def test_lines(self):
        found = tokens("a // b\n`timescale 1ns/1ps\n(* x,\n *) c")
        self.assertEqual([(token.text, token.line) for token in found], [("a", 1), ("c", 4)])

    def test_attributes(self):
        places = []
        tokens('(* a = "*)" *) b', places)
        self.assertEqual(places, [(0, 14)])

    def test_faults(self):
        for text in ("a\n$b", "a\n(* b", "a\n/* b"):
            with self.assertRaisesRegex(Fault, "^line 2: no token of the language begins here$"):
                tokens(text)

    def test_names(self):
        for name, text in (("a_1$", "a_1$"), ("a[0]", "\\a[0] "), ("wire", "\\wire "),
                           ("1a", "\\1a ")):
            self.assertEqual(written(name), text)
            self.assertEqual([token.text for token in tokens(written(name))], [name])

    def test_numbers(self):
        for digits, number in (("hFf", 255), ("b1_0", 2), ("o17", 15), ("d9", 9), ("b1x", None)):
            self.assertEqual(number_of(digits), number)


class Modules(unittest.TestCase):
    def read(self, text):
        with tempfile.TemporaryDirectory() as folder:
            path = os.path.join(folder, "t.v")
            with open(path, "w", encoding="latin-1") as file:
                file.write(text)
            return read_modules(path)

    def test_module(self):
        first, second = Reader(TWO).modules()
        self.assertEqual((first.name, first.ports), ("m", ["a", "y"]))
        self.assertEqual(first.nets["a"].range, (0, 2))
        self.assertEqual([bit_text(net.name, index) for net, index in first.pins("input")],
                         ["a[0]", "a[1]", "a[2]"])
        self.assertEqual(first.assigns[0], (("net", "w", None), ("net", "a", (1, 1))))
        self.assertEqual(second.registers[0].clock, ("net", "b", (3, 3)))
        self.assertEqual(second.registers[0].value,
                         ("words", [("net", "b", (2, 1)), ("bits", 2, 3)], ["=="]))
        self.assertEqual(TWO[second.start:second.end], TWO[TWO.index("module n"):].rstrip())

    def test_precedence(self):
        """`&` binds more tightly than `|`, and `~` more tightly than both (IEEE 1364-2005, 5-4)."""
        self.assertEqual(Reader(TWO).modules()[0].assigns[1][1], (
            "chain", [("chain", [("net", "w", None), ("not", ("net", "a", (0, 0)), 1)], ["&"]),
                      ("net", "a", (2, 2))], ["|"]))

    def test_indices(self):
        for bounds, indices in ((None, [None]), ((2, 0), [2, 1, 0]), ((0, 2), [0, 1, 2]),
                                ((1, 1), [1])):
            net = Net("n")
            net.range = bounds
            self.assertEqual(net.indices(), indices)

    def test_boxes(self):
        for body, is_box in (("input a; output y;", True), ("input a; output y; wire w;", False),
                             ("input a; output y; assign y = a;", False)):
            self.assertEqual(Reader(f"module b(a, y); {body} endmodule").modules()[0].is_box(),
                             is_box)

    def test_faults(self):
        for text, wanted in (("", "no module"),
                             ("module m(a); initial a = 1; endmodule", "initial"),
                             ("module m(a); input a;", "ends within a module"),
                             ("module m;\nassign = 1; endmodule", "line 2: `=`")):
            with self.assertRaisesRegex(Fault, wanted):
                self.read(text)

    def test_top(self):
        _, modules = self.read("module a(x); input x; b u(x); endmodule "
                               "module b(x); input x; endmodule")
        self.assertEqual(top_of("t.v", modules, None).name, "a")
        self.assertEqual(top_of("t.v", modules, "b").name, "b")
        for name, more in (("c", ""), (None, "module c(x); input x; endmodule")):
            with self.assertRaises(Fault):
                others = {found.name: found for found in Reader(more).modules()}
                top_of("t.v", {**modules, **others}, name)


class Operators(unittest.TestCase):
    def test_widths(self):
        for operator, width in (("+", 6), ("-", 6), ("<<", 4), (">>", 4), ("==", 1), ("&&", 1)):
            self.assertEqual(result_width(operator, 4, 6), width)
        for operator, widths in (("+", (8, 8)), ("<<", (8, 6)), ("&&", (4, 6)), ("<", (6, 6))):
            self.assertEqual(taken_at(operator, 4, 6, 8), widths)

    def test_levels(self):
        """In `a + b - c` of 4, 6 and 2 bits in a context of 8 all are taken at 8 bits; in
        `a << b + ..` what a shift is by keeps its own width."""
        self.assertEqual(contexts(["+", "-"], [4, 6, 2], 8), (8, [("+", 8, 8), ("-", 8, 8)]))
        self.assertEqual(contexts(["<<"], [4, 3], 8), (8, [("<<", 3, 8)]))

    def test_numbers(self):
        for operator, left, right, number in (
                ("+", 9, 9, 2), ("-", 3, 5, 14), ("<<", 3, 3, 8), ("<<", 3, 4, 0), (">>", 12, 2, 3),
                (">>", 12, 9, 0), ("==", 3, 3, 1), ("!=", 3, 3, 0), ("<", 3, 3, 0), ("<=", 3, 3, 1),
                (">", 4, 3, 1), (">=", 2, 3, 0), ("&&", 2, 0, 0), ("||", 0, 4, 1)):
            self.assertEqual(meaning(operator, left, right, 4), number,
                             f"{left} {operator} {right}")

    def test_reductions(self):
        for operator, bit in (("&", False), ("~&", True), ("|", True), ("~|", False), ("^", True),
                              ("~^", False), ("^~", False), ("!", False)):
            self.assertEqual(reduction(operator, 0b0111, 4), bit, operator)
