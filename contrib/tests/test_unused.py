"""The tries of `fill --spec`: rows that no vector brings to a box become `default`, and no
others."""
import os
import re

from bbeq_tools.developing.drawn import drawn_pair
from bbeq_tools.reference.truths import by_rows, chosen_row, lists
from bbeq_tools.report.filler import STYLES
from bbeq_tools.report.reports import tables
from tests.test_reports import pair_in
from tests.tries import Tries, bbeq, is_told, read, run, script, write

FRONT = """module t(a, b, y, z); input [1:0] a; input b; output [1:0] y; output z;
  wire p, q; and(p, a[1], a[0]); or(q, a[1], a[0]);
"""
BOX = "module bx(i, j, o); input [1:0] i; input j; output o; endmodule\n"
# The pins i are never 10, since an and is no more than an or.
NEVER = (FRONT + "  xor(y[1], p, q, b); assign y[0] = b; assign z = b; endmodule\n",
         FRONT + "  bx u({p, q}, b, y[1]); assign y[0] = b; assign z = b; endmodule\n" + BOX)
# All rows come, and for some nothing is seen of what the box gives.
UNSEEN = (FRONT + "  and(y[1], a[1], a[0], b); assign y[0] = b; assign z = b; endmodule\n",
          FRONT + "  wire o; bx u(a, b, o); and(y[1], o, a[0]); assign y[0] = b; assign z = "
          "b; endmodule\n" + BOX)
# Two boxes of one module, with one table: the one never reads 10, the other never 01.
TWICE = (FRONT + "  xor(y[1], p, q, b); xor(y[0], q, p, b); assign z = b; endmodule\n",
         FRONT + "  bx u({p, q}, b, y[1]); bx v({q, p}, b, y[0]); assign z = b; endmodule\n" + BOX)
# A box behind another: its pins are the outputs of the first.
BEHIND = (FRONT + "  xor(y[1], a[1], a[0]); assign y[0] = b; assign z = b; endmodule\n",
          FRONT + "  wire o; bx u(a, 1'b0, o); bx v({o, o}, 1'b1, y[1]); assign y[0] = b; assign z "
          "= b; endmodule\n" + BOX)
# The pins of the first as values of operators on words.
WORDS = (NEVER[0], NEVER[1].replace("{p, q}", "{&a, a - 2'd1 < 2'd3}"))
# The same where directions stand in the header, with a register and a box below the top.
DEEP = ("module t(input clk, input [1:0] a, input b, output reg y); always @(posedge clk) y <= "
        "a[0] ^ b; endmodule\n", "module t(input clk, input [1:0] a, input b, output reg y); wire "
        "o; k w({a[0], a[0]}, b, o);\n  always @(posedge clk) y <= o; endmodule\nmodule k(input "
        "[1:0] i, input j, output o); bx u(i, j, o); endmodule\n" + BOX)
FLAT = (DEEP[0], DEEP[1].replace("k w(", "bx w(").split("module k")[0] + BOX)


# A row that one of 16,777,216 vectors brings to the box, which no drawing meets.
ALL = ", ".join(f"a[{bit}]" for bit in range(24))
RARE = tuple(f"module t(a, b, y); input [23:0] a; input b; output y; wire p; and(p, {ALL}); {rest}"
             for rest in ("xor(y, p, b); endmodule\n", "bx u({b, p}, b, y); endmodule\n" + BOX))
SAME = "rung expand repair\ntable u o 01101001\ntable v o 01101001\nverdict repairable\n"


def filled(folder, texts, *words, report=None):
    """The filled implementation, and the whole of what was done."""
    spec, implementation = (write(folder, name, text)
                            for name, text in zip(("spec.v", "impl.v"), texts))
    report = write(folder, "report", report or bbeq(spec, implementation).out)
    out = os.path.join(folder, "filled.v")
    done = run([script("fill"), report, implementation, "--spec", spec, "-o", out, *words])
    return read(out) if done.status == 0 else "", done


def agrees(folder, words):
    """What was filled, by way of gates, agrees with the specification."""
    made = os.path.join(folder, "made.v")
    done = run([script("gates"), *words, os.path.join(folder, "filled.v"), "-o", made])
    return bbeq(os.path.join(folder, "spec.v"), made).status == 0 if done.status == 0 else False


def rows_that_come(texts, report):
    """The rows of the one box, which stands in the top, that some vector brings to it; else
    nothing."""
    pair = pair_in(texts)
    if not report.endswith("verdict repairable\n") or [box.path.count(".")
                                                       for box in pair.boxes] != [0]:
        return None
    world = pair.filled(by_rows(pair.contents_in(tables(report.splitlines()))))
    return ["".join(str(int(bit)) for bit in row)
            for row in lists(len(pair.boxes[0].ins)) if chosen_row(world, pair.boxes[0], row)]


def drawn_tries(tally, folder):
    """Pairs with one box, against all vectors, one by one."""
    seed, tried, joined = 0, 0, 0
    while tried < 30:
        texts, seed = drawn_pair(seed), seed + 1
        report = bbeq(*(write(folder, name, text)
                        for name, text in zip(("spec.v", "impl.v"), texts))).out
        rows = rows_that_come(texts, report)
        if rows is not None:
            text, done = filled(folder, texts, "--style", "case", report=report)
            joined, tried = joined + text.count("default"), tried + 1
            tally.note(f"fill --spec: drawn pair {seed - 1} has the rows that come",
                       re.findall(r" \d'b([01]+): ", text) == rows, done.why())
    tally.note(f"fill --spec: {joined} of the drawn pairs have others", joined > 3)


class Unused(Tries):
    part = "unused"

    def test_unused(self):
        drawn_tries(self, self.folder)
        for name, texts, rows, defaults in (("two rows that never come", NEVER, 6, 1),
                                            ("words at the pins", WORDS, 6, 1),
                                            ("rows of which nothing is seen", UNSEEN, 8, 0),
                                            ("two boxes that need other rows", TWICE, None, None),
                                            ("boxes one behind the other", BEHIND, None, None),
                                            ("a box below the top", DEEP, 8, 0),
                                            ("directions in the header", FLAT, 4, 1),
                                            ("a row that comes once", RARE, 4, 1)):
            for style in STYLES:
                text, done = filled(self.folder, texts, "--style", style)
                right = done.status == 0 and agrees(self.folder, ["--top", "t"])
                self.note(f"fill --spec --style {style}: {name}, agrees", right, done.why())
                found = len(re.findall(r"\d'b[01]+: ", text)), text.count("default:")
                if style == "case" and rows is not None:
                    self.note(f"fill --spec: {name}: {found[0]} rows, {found[1]} default",
                              found == (rows, defaults), text)
        text, done = filled(self.folder, TWICE, "--style", "case", report=SAME)
        right = text.count("module bx") == 1 and "default" not in text
        self.note("fill --spec: one module for two boxes has the rows that either needs", right,
                  text)
        text, done = filled(self.folder, BEHIND, "--style", "case")
        self.note("fill --spec: rows that another box keeps away", "default" in text, text)
        told = run([script("fill"), os.path.join(self.folder, "report"),
                    os.path.join(self.folder, "impl.v"), "--spec", "nowhere.v"])
        self.note("fill --spec with a file that is not there", is_told(told, "fill"), told.why())
        other = write(self.folder, "other.v", BEHIND[0].replace("xor", "and"))
        told = run([script("fill"), os.path.join(self.folder, "report"),
                    os.path.join(self.folder, "impl.v"), "--spec", other])
        self.note("fill --spec with another specification",
                  is_told(told, "fill") and "verdict error" in told.err, told.why())
