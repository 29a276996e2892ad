"""The tries of the contents that `fill` writes: in each style they are the tables from time 0 on,
also at pins that never change, and where pins are unknown an output is known only if all that they
may be give the same."""
import os
import random
from itertools import product

from bbeq_tools.report.filler import STYLES
from bbeq_tools.report.products import MOST_PINS
from bbeq_tools.report.sums import expression
from bbeq_tools.verilog.language import Reader
from tests.tries import Tries, read, run, script, write

SHAPES = ((1, 1), (2, 1), (3, 2), (4, 3), (7, 2))


def box_text(ins, outs):
    """A box with a port of one bit and one of the others, in both directions."""
    def port(name, bits):
        return f"{name} [0:{bits - 1}] " if bits > 1 else f"{name} "
    return (f"module bx(contents, o); {port('input', ins)}contents; {port('output', outs)}o; "
            "endmodule\n")


def top_text(ins, outs):
    return (f"module t(a, y); input [{ins - 1}:0] a; output [{outs - 1}:0] y; bx u(a, y); "
            "endmodule\n")


def rows_with(digits, ins):
    """All rows of these digits, as texts."""
    return ["".join(row) for row in product(digits, repeat=ins)]


def bench(ins, outs, rows):
    """An instance for each row, with constant pins, and what each gives at time 0."""
    lines = ["module bench;"]
    for at, row in enumerate(rows):
        lines.append(f"  wire [{outs - 1}:0] y{at}; bx u{at}({ins}'b{row}, y{at});")
    lines += ["  initial begin", *[f'    $strobe("%b", y{at});' for at in range(len(rows))],
              "  end", "endmodule"]
    return "\n".join(lines) + "\n"


def due(row, table):
    """The most that is known of an output at a row with unknown pins: the bit that it has whatever
    these are, else x. Rows of `-` never come, and neither does one that may be no other."""
    bits = {table[int("".join(known), 2)]
            for known in product(*[digit if digit in "01" else "01" for digit in row])} - {"-"}
    return "-" if not bits else bits.pop() if len(bits) == 1 else "x"


class Styles(Tries):
    part = "styles"
    needs = ("iverilog", "vvp")

    def simulated(self, filled, ins, outs, rows):
        paths = [filled, write(self.folder, "bench.v", bench(ins, outs, rows))]
        program = os.path.join(self.folder, "bench.vvp")
        made = run(["iverilog", "-g2005", "-Wall", "-s", "bench", "-o", program, *paths])
        return run(["vvp", "-n", program]).out.split() if made.status == 0 else made.why()

    def test_styles(self):
        draw = random.Random(4)
        for ins, outs in SHAPES:
            for bias in (0.5, 0.1):
                rows = ["".join("1" if draw.random() < bias else "0" for _ in range(outs))
                        for _ in range(2 ** ins)]
                self.try_table(ins, outs, rows)
        self.try_table(6, 1, [str(row.bit_count() % 2) for row in range(64)])

    def try_table(self, ins, outs, rows):
        pins = [f"o[{place}]" if outs > 1 else "o" for place in range(outs)]
        report = "".join(f"table u {pin} {''.join(row[place] for row in rows)}\n"
                         for place, pin in enumerate(pins))
        report = write(self.folder, "report", f"rung input repair\n{report}verdict repairable\n")
        implementation = write(self.folder, "impl.v", top_text(ins, outs) + box_text(ins, outs))
        for style in STYLES:
            filled = os.path.join(self.folder, "filled.v")
            done = run([script("fill"), "--only", "--style", style, report, implementation, "-o",
                        filled])
            shown = (self.simulated(filled, ins, outs, rows_with("01", ins))
                     if done.status == 0 else done.why())
            self.note(f"fill --style {style}, {ins} pins and {outs} outputs, at time 0",
                      shown == rows, f"{str(shown)[:200]} {read(filled)[:400]}")

    def test_unknown(self):
        """All rows with x or z at some pins."""
        draw = random.Random(6)
        for ins, outs, digits in ((1, 1, "01xz"), (2, 2, "01xz"), (3, 2, "01x"), (4, 1, "01x")):
            for odds in (1, 3):
                rows = ["".join(draw.choice("0" * odds + "1") for _ in range(outs))
                        for _ in range(2 ** ins)]
                self.try_unknown(ins, rows, rows_with(digits, ins))
                unused = [draw.choice((row, "-" * outs)) for row in rows]
                self.try_unknown(ins, unused, rows_with(digits, ins))

    def try_unknown(self, ins, table, rows):
        outs, tables = len(table[0]), ["".join(pins) for pins in zip(*table)]
        module = Reader(box_text(ins, outs)).modules()[0]
        texts = [box_text(ins, outs).replace(" bx(", f" bx_{style}(").replace(
            "endmodule", "\n".join(["", *lines(module, tables), "endmodule"]))
            for style, lines in STYLES.items()]
        all_outs = ", ".join(f"o[{at * outs}:{(at + 1) * outs - 1}]" for at in range(len(STYLES)))
        texts.append(f"module bx(a, o); input [{ins - 1}:0] a; output [0:{len(STYLES) * outs - 1}] "
                     "o; " + " ".join(f"bx_{style} u_{style}(a, {own});" for style, own in
                                      zip(STYLES, all_outs.split(", "))) + " endmodule\n")
        shown = self.simulated(write(self.folder, "filled.v", "".join(texts)), ins,
                               len(STYLES) * outs, rows)
        wanted = ["".join(due(row, own) for own in tables) for row in rows]
        for at, style in enumerate(STYLES):
            wrong = [(row, own[at * outs:(at + 1) * outs], bits)
                     for row, own, bits in zip(rows, shown, wanted)
                     if not is_due(style, row, own[at * outs:(at + 1) * outs], bits, tables)]
            self.note(f"fill --style {style}, {ins} pins of which some are unknown: {tables}",
                      len(shown) == len(rows) and not wrong, f"{wrong[:3]} {texts[at]}")

    def test_sums(self):
        """Each row has its bit, and one that never comes has any."""
        draw, names = random.Random(5), [f"p{place}" for place in range(5)]
        for number in range(40):
            bits = "".join(draw.choice("01-" if number % 2 else "01") for _ in range(32))
            text = expression(names, bits)
            for row, bit in enumerate(bits):
                made = value_of(text, {name: row >> (4 - place) & 1
                                       for place, name in enumerate(names)})
                if bit not in ("-", str(made)):
                    self.note(f"sum of {bits}", False, f"row {row}: {text}")
        self.note("sums of forty drawn tables", not self.failed)
        wide = "0" * 1023 + "1"
        self.note("an and of ten pins", expression([f"p{place}" for place in range(MOST_PINS)],
                                                   wide).count("&") == 9)


def is_due(style, row, shown, wanted, tables):
    """Whether outputs are what a style makes of a row, of which `wanted` is the most that is known.
    Sums know less of some, and so does what takes rows that never come for 0."""
    is_known = set(row) <= {"0", "1"}
    if style == "case" and not is_known:
        return set(shown) == {"x"}
    return all(own == bit or bit == "-" or not is_known and own == "x"
               and (style == "sums" or "-" in table)
               for own, bit, table in zip(shown.replace("z", "x"), wanted, tables))


def value_of(text, bits):
    """The value of an expression, by Python's."""
    choice = text.partition(" ? ")
    if choice[1]:
        then, _, otherwise = choice[2].partition(" : ")
        return value_of(then if bits[choice[0]] else otherwise, bits)
    return eval(text.replace("1'b", ""), {}, bits) & 1
