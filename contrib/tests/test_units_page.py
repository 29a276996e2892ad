"""Unit tests of what a page is made of."""
import random
import struct
import unittest
import zlib

from bbeq_tools.cli import Fault
from bbeq_tools.page.account import checks_of
from bbeq_tools.page.document import marked, on_open, on_refusal, without_references
from bbeq_tools.page.layout import dot_text, read
from bbeq_tools.page.logic import Logic, forcing, gates_of, shape_of
from bbeq_tools.page.markup import element, escaped, folded, shortened, visible
from bbeq_tools.page.picture import SIGNATURE, chunk, pixels, with_palette
from bbeq_tools.page.reach import unreached
from bbeq_tools.page.sides import Side, Signals, check_fit, choice, difference
from bbeq_tools.page.sources import addition, excerpt, named_line
from bbeq_tools.page.traces import buses, traces_of, value_text
from bbeq_tools.report.products import covers, least_sum, primes, sum_text
from tests.test_units_report import Files

TEXT = """module m(a, b, c, y, z); input a, b, c; output y, z; wire w;
h u(a, w); assign y = ~(a & b) | w; assign z = c ? a ^ b : w; endmodule
module h(i, o); input i; output o; endmodule
"""
WHOLE = ("module m(a, b, c, y, z); input a, b, c; output y, z; assign y = a | b | c, z = a; "
         "endmodule")


class Markup(unittest.TestCase):
    def test_escaped(self):
        self.assertEqual(escaped("<a&\"'>"), "&lt;a&amp;&quot;&#x27;&gt;")
        self.assertEqual(escaped(escaped("<")), "&lt;")
        self.assertEqual(element("p", "<b>", class_="x\"y", open=True, id_=None),
                         '<p class="x&quot;y" open>&lt;b&gt;</p>')
        self.assertEqual(element("path", d="M0,0"), '<path d="M0,0"/>')
        self.assertIn("<summary>&lt;i&gt;</summary>", folded("<i>"))

    def test_texts(self):
        self.assertEqual(visible("a\x00\x1b\u202eb"), "a\\x00\\x1b\\u202eb")
        self.assertEqual(shortened("abcdefgh", 5), "ab…gh")
        self.assertEqual(shortened("abcde", 5), "abcde")


class Account(unittest.TestCase):
    def test_checks(self):
        checks = checks_of("r", ["rung expand error", "vector 0", "clause 0 1", "clause 1 -1",
                                 "step 2 0 1/1"])
        self.assertEqual(checks[0].proof, {"vector": 1, "clause": 2, "step": 1})
        checks = checks_of("r", ["rung ternary error", "output y", "input a=0", "rung local none"])
        self.assertEqual([check.lines for check in checks], [["output y", "input a=0"], []])
        with self.assertRaises(Fault):
            checks_of("r", ["rung ternary"])

    def test_document(self):
        self.assertEqual(marked("try `--nodes <1>` **now**"),
                         "try <code>--nodes &lt;1&gt;</code> <strong>now</strong>")
        self.assertEqual(without_references("4. Fewer outputs, see below."), "Fewer outputs.")
        self.assertIn("on line 4 no token", on_refusal("refused impl token line 4")[0])
        for line, word in (("refused usage", "arguments"), ("unread spec", "read"),
                           ("refused pair port b", "port"), ("refused pair pins", "2,048"),
                           ("refused spec notop", "instantiated"), ("refused cnf count", "clauses"),
                           ("refused impl regtwice q", "text")):
            self.assertIn(word, on_refusal(line)[0], line)
        self.assertTrue(any("50000000" in text for text in on_open("rung input nodes")))


class Designs(Files):
    def side(self, text, name="impl"):
        return Side(name, self.put(text), None)

    def test_values(self):
        self.assertEqual([choice("x", "1", "1"), choice("x", "0", "1"), choice("0", "x", "1")],
                         ["1", "x", "1"])
        self.assertEqual([difference("1", "x"), difference("1", "0")], ["x", "1"])

    def test_signals(self):
        side = self.side(TEXT)
        for vector, wanted in (("000", "1x"), ("110", "xx"), ("101", "11"), ("111", "x0")):
            side.look(dict(zip("abc", vector)))
            self.assertEqual(side.bit(("output", "y")) + side.bit(("output", "z")), wanted)

    def test_numbers(self):
        self.assertEqual(self.side(TEXT).numbers(), (3, 0, 2, 1, 5, 27))

    def test_shapes(self):
        flat = self.side(TEXT).flat
        cells = [flat.sources["", name, None] for name in "yz"]
        self.assertEqual([shape_of(cell)[:2] for cell in cells], [("or", False), ("mux", False)])
        self.assertEqual(shape_of(cells[0].parts[0])[:2], ("and", True))
        self.assertEqual([gates_of(flat, ("", name, None)) for name in "yz"], [2, 2])

    def test_forcing(self):
        self.assertEqual(forcing("and", "0", ["x", "0", "0"]), [1])
        self.assertEqual(forcing("and", "1", ["1", "1"]), [0, 1])
        self.assertEqual(forcing("mux", "1", ["0", "x", "1"]), [0, 2])
        self.assertEqual(forcing("or", "x", ["x", "0"]), [])

    def test_logic(self):
        side = self.side(TEXT)
        side.look(dict(zip("abc", "101")))
        logic = Logic(side.signals, side.values["output", "y"], "y", 10)
        kinds = sorted(node.kind for node in logic.nodes.values())
        self.assertEqual(kinds, ["box", "gate", "gate", "input", "input", "input", "root"])
        cut = Logic(side.signals, side.values["output", "y"], "y", 1)
        self.assertEqual([node.gates for node in cut.nodes.values() if node.kind == "cut"], [1])
        text = dot_text({key: at for at, key in enumerate(logic.nodes)}, logic)
        self.assertEqual(text.count("->"), 6)
        self.assertNotIn('"y"', text)

    def test_missing(self):
        sides = [self.side(WHOLE, "spec")]
        sides.append(self.side(TEXT))
        self.assertEqual(unreached(sides), [(("output", "y"), ["c"])])

    def test_fit(self):
        side = self.side(TEXT)
        check_fit({"a": "0", "b": "0", "c": "0"}, [side])
        for names in ("ab", "abcd"):
            with self.assertRaises(Fault):
                check_fit(dict.fromkeys(names, "0"), [side])

    def test_traces(self):
        sides = [self.side(WHOLE, "spec"), self.side(TEXT)]
        vector = dict(zip("abc", "111"))
        for side in sides:
            side.look(vector)
        traces = traces_of(sides, vector, ("output", "z"), None)
        self.assertEqual([trace.now for trace in traces.outputs], [["1", "x"], ["1", "0"]])
        self.assertEqual(traces.wrong(), [("output", "z")])
        self.assertEqual(traces.open(), [("output", "y")])

    def test_none(self):
        flat = self.side(TEXT).flat
        self.assertEqual(Signals(flat, None, [("", "y", None)]).of(("", "y", None)), "x")


class Buses(unittest.TestCase):
    def test_buses(self):
        self.assertEqual(buses(["a[1]", "b", "a[0]", "c[7]", "c[5]"]),
                         [("a[1:0]", ["a[1]", "a[0]"]), ("b", ["b"]), ("c[7]", ["c[7]"]),
                          ("c[5]", ["c[5]"])])
        self.assertEqual(buses(["a[0]", "a[0]"]), [("a[0]", ["a[0]"]), ("a[0]", ["a[0]"])])

    def test_values(self):
        self.assertEqual(value_text("10x1"), "10x1")
        self.assertEqual(value_text("1111000010x1"), "f0x")


class Products(unittest.TestCase):
    def test_known(self):
        """The majority of three, the parity of two, a constant, and a row that may be either."""
        self.assertEqual(sum_text("abc", least_sum(3, "00010111")), ["a & b", "a & c", "b & c"])
        self.assertEqual(sum_text("ab", least_sum(2, "0110")), ["a & ~b", "~a & b"])
        self.assertEqual(sum_text("ab", least_sum(2, "1111")), ["1'b1"])
        self.assertEqual(sum_text("ab", least_sum(2, "0000")), ["1'b0"])
        self.assertEqual(sum_text("ab", least_sum(2, "001-")), ["a"])
        self.assertEqual(sum_text("", least_sum(0, "1")), ["1'b1"])

    def test_drawn(self):
        """A sum is 1 exactly in the rows that are, and no smaller set of primes covers these."""
        draw = random.Random(7)
        for _ in range(60):
            width = draw.randint(1, 4)
            bits = "".join(draw.choice("0011-") for _ in range(1 << width))
            found = least_sum(width, bits)
            for row, bit in enumerate(bits):
                is_one = any(covers(cube, row) for cube in found.cubes)
                self.assertTrue(bit == "-" or is_one == (bit == "1"))
            self.assertEqual(len(found.cubes), self.least(width, bits))

    def least(self, width, bits):
        """The number of products, by trying all sets of primes, the small ones first."""
        ones = {row for row, bit in enumerate(bits) if bit == "1"}
        cubes = primes(width, {row for row, bit in enumerate(bits) if bit != "0"})
        covered = {frozenset()}
        for size in range(len(cubes) + 1):
            if any(ones <= rows for rows in covered):
                return size
            covered = {rows | {row for row in ones if covers(cube, row)}
                       for rows in covered for cube in cubes}
        raise AssertionError(bits)


class Sources(Files):
    def test_lines(self):
        self.assertEqual(named_line("refused impl statement line 12"), ("impl", 12))
        self.assertIsNone(named_line("refused pair pins"))
        shown = excerpt(self.put("a\n<b>\nc\n"), 2)
        self.assertIn('<span class="here">     2  &lt;b&gt;', shown)
        self.assertIn("has no line 9", excerpt(self.path, 9))

    def test_additions(self):
        path = self.put("c x\n1 2 0\nd 1 2 0\n-1\n0 3 0\n")
        self.assertEqual([addition(path, number) for number in (1, 2, 3, 4)],
                         ["1 2 0", "-1 0", "3 0", None])


class Pictures(unittest.TestCase):
    def test_palette(self):
        """Each filter is undone, and what is written has the same pixels."""
        lines = [bytes([5 * at, 255 - at, at % 3]) * 4 for at in range(5)]
        raw, above = b"", bytes(12)
        for kind, line in enumerate(lines):
            raw += bytes([kind]) + filtered(kind, line, above)
            above = line
        data = (SIGNATURE + chunk(b"IHDR", struct.pack(">IIBBBBB", 4, 5, 8, 2, 0, 0, 0))
                + chunk(b"IDAT", zlib.compress(raw)) + chunk(b"IEND", b""))
        self.assertEqual(pixels(data), (4, 5, lines))
        self.assertEqual(with_palette(data)[:8], SIGNATURE)
        with self.assertRaises(Fault):
            pixels(b"GIF89a")


def filtered(kind, line, above):
    """A line of pixels of three bytes, by a filter of PNG."""
    found = []
    for at, byte in enumerate(line):
        left, corner = (line[at - 3], above[at - 3]) if at >= 3 else (0, 0)
        guess = left + above[at] - corner
        nearest = min((abs(guess - left), 0, left), (abs(guess - above[at]), 1, above[at]),
                      (abs(guess - corner), 2, corner))[2]
        found.append(byte - (0, left, above[at], (left + above[at]) // 2, nearest)[kind] & 255)
    return bytes(found)


class Layouts(unittest.TestCase):
    def test_read(self):
        found = {"bb": "0,0,100,50", "objects": [
            {"name": "n0", "pos": "10,20", "width": "0.5", "height": "0.25"}],
            "edges": [{"id": "0 1", "pos": "1,2 3,4 5,6 7,8"}]}
        layout = read(found, ["a"])
        self.assertEqual(layout.places["a"], (10.0, 30.0, 36.0, 18.0))
        self.assertEqual(layout.runs[0][:2], ("a", 1))
        self.assertEqual(layout.runs[0].points[0], (1.0, 48.0))
