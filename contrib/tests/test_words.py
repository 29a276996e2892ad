"""Operators on words against a simulator: $CHECK_WORDS drawn expressions over nets of 1 to 70 bits
and sized numbers, in contexts that are narrower and wider than they are, each at three vectors.
What iverilog gives is compared with what `evaluate` means, and by the program with the expression
in which the nets have the numbers of the vector; with one bit turned the program has to find it.
Plain numbers, of which the standard bounds neither the width nor the carry, stand at the end alone.
Beside that, what is own, by hand; and the numbers of cells."""
import os
import random

from bbeq_tools.verilog.bits import Bit
from bbeq_tools.verilog.flat import Cell, Flat
from bbeq_tools.verilog.language import Reader, number_of
from bbeq_tools.verilog.values import Design
from bbeq_tools.verilog.world import World
from tests.tries import Tries, bbeq, run, write

DRAWN, AT_ONCE, VECTORS = int(os.environ.get("CHECK_WORDS", "300")), 25, 3
UNARY = ("!", "&", "~&", "|", "~|", "^", "~^", "^~", "~")
WORDS = ("+", "-", "==", "!=", "<", "<=", ">", ">=", "<<", ">>", "&&", "||")
BINARY = (*WORDS, *WORDS, "&", "|", "^", "~^", "^~")
WIDTHS = (1, 2, 3, 4, 7, 8, 31, 32, 33, 40, 64, 70)
# Where bbeq differs from the standard, or a reader could.
OWN = (("(1 - 2) < 3", "1'b0"), ("{1'b1, {1 + 1}}", "33'h100000002"), ("2'd3 &&& 2'd2", "1'b0"),
       ("1'b0 ||| 2'd2", "1'b1"), ("~~&3'd7", "1'b1"), ("!~3'd7", "1'b1"), ("~^~4'd8", "1'b0"),
       ("2'd1 + 2'd3", "2'd0"), ("1 << 31 << 1 == 0", "1'b1"), ("4'd9 - 4'd10 >> 2'd1", "4'd7"),
       ("1'b1 << 1'b1", "1'b0"), ("4'd1 << 2'd1 + 2'd3", "4'd1"),
       ("3'd1 < 3'd2 == 1'b1 & 1'b1", "1'b1"))


class Expression:
    """A drawn expression, its nets with their widths and their numbers at each vector, and the
    width at which it is taken."""

    def __init__(self, number):
        self.draw, self.number = random.Random(f"words {number}"), number
        most = len(WIDTHS) if self.draw.randrange(3) == 0 else 6
        self.nets = {f"{name}{number}": WIDTHS[self.draw.randrange(most)] for name in "abc"}
        self.text, self.width = (self.drawn(self.draw.choice((1, 1, 2, 2, 3))),
                                 self.draw.choice((1, 2, 5, 8, 12, 31, 33, 70, 90)))
        if not self.draw.randrange(6):
            self.text = (f"{self.text} {self.draw.choice(('+', '-', '&', '|', '<<', '>>'))} "
                         f"{self.draw.randrange(5)}")
        self.numbers = [{net: self.drawn_number(width) for net, width in self.nets.items()}
                        for _ in range(VECTORS)]

    def drawn_number(self, width):
        """Any, a small one, or one of the greatest."""
        kind = self.draw.randrange(4)
        number = (self.draw.getrandbits(width) if kind < 2 else self.draw.randrange(8) if kind == 2
                  else -1 - self.draw.randrange(3))
        return number % (1 << width)

    def leaf(self):
        net, kind = self.draw.choice(list(self.nets)), self.draw.randrange(6)
        if kind == 0:
            size = self.draw.choice((1, 2, 3, 5, 8, 33, 40))
            return f"{size}'d{self.draw.getrandbits(size)}"
        if kind == 1 and self.nets[net] > 1:
            low, high = sorted(self.draw.randrange(self.nets[net]) for _ in range(2))
            return f"{net}[{high}:{low}]" if high > low else f"{net}[{low}]"
        return net

    def drawn(self, depth):
        if not depth or not self.draw.randrange(10):
            return self.leaf()
        a, b, c = [self.drawn(depth - 1) for _ in range(3)]
        one, other, third = [self.draw.choice(BINARY) for _ in range(3)]
        kinds = (f"({a} {one} {b})", f"({a} {one} {b} {other} {c})", f"({a} {one} {b} {other} {c} "
                 f"{third} {self.leaf()})", f"{self.draw.choice(UNARY)}({a})", f"({a} ? {b} : {c})",
                 f"{{{a}, {b}}}", f"{{2{{{a}}}}}")
        return kinds[self.draw.choice((0, 0, 0, 0, 1, 1, 1, 2, 3, 3, 4, 5, 6))]


def bounds(width):
    return "" if width == 1 else f"[{width - 1}:0] "


def by_simulator(folder, expressions):
    """For each expression its bits at each vector, as iverilog gives them."""
    lines, steps = [], []
    for one in expressions:
        lines += [f"reg {bounds(width)}{net};" for net, width in one.nets.items()]
        lines.append(f"wire {bounds(one.width)}y{one.number}; assign y{one.number} = {one.text};")
        for numbers in one.numbers:
            given = " ".join(f"{net} = {one.nets[net]}'d{number};"
                             for net, number in numbers.items())
            steps.append(f'{given} #1 $display("%b", y{one.number});')
    text = "\n".join(["module bench;", *lines, "initial begin", *steps, "end", "endmodule", ""])
    made = os.path.join(folder, "bench")
    done = run(["iverilog", "-g2005", "-o", made, write(folder, "bench.v", text)])
    found = (run(["vvp", made]) if done.status == 0 else done).out.split()
    return [found[at:at + VECTORS] for at in range(0, len(found), VECTORS)], done


def by_evaluate(one):
    """The same as the reader and the definitions behind `evaluate` have it."""
    nets = ", ".join(one.nets)
    declared = "".join(f"input {bounds(width)}{net}; " for net, width in one.nets.items())
    module, = Reader(f"module t({nets}, y); {declared}output {bounds(one.width)}y; assign y = "
                     f"{one.text}; endmodule").modules()
    design, every = Design({"t": module}, module), (1 << VECTORS) - 1
    vector = {}
    for net, index in module.pins("input"):
        bits = sum((numbers[net.name] >> (index or 0) & 1) << at
                   for at, numbers in enumerate(one.numbers))
        vector["input", net.name if index is None else f"{net.name}[{index}]"] = Bit(bits,
                                                                                     every & ~bits)
    world = World(design, vector, None)
    bits = [make(world).one for _, make in design.outputs]
    return ["".join(str(bit >> at & 1) for bit in bits) for at in range(VECTORS)]


def pair(folder, outputs):
    """A specification with these expressions, as (name, width, nets, text), and an implementation
    with these numbers."""
    ports = ", ".join(name for name, *_ in outputs)
    declared = "".join(f"output {bounds(width)}{name}; " for name, width, *_ in outputs)
    sides = [f"module t(x, {ports}); input x; {declared}\n"
             + "".join(f"{nets * side}assign {name} = {text if side else number};\n"
                       for name, _, nets, text, number in outputs) + "endmodule\n"
             for side in (1, 0)]
    return bbeq(*[write(folder, name, text) for name, text in zip(("spec.v", "impl.v"), sides)])


def try_program(tally, name, folder, expressions, found):
    """The program finds the numbers of each vector right, and one of them wrong where a bit of it
    is turned."""
    for at in range(VECTORS):
        outputs = []
        for one, bits in zip(expressions, found):
            nets = "".join(f"wire {bounds(one.nets[net])}{net} = {one.nets[net]}'d{number};\n"
                           for net, number in one.numbers[at].items())
            outputs.append([f"y{one.number}", one.width, nets, one.text,
                            f"{one.width}'b{bits[at]}"])
        done = pair(folder, outputs)
        tally.note(f"{name}: the program at vector {at}", done.status == 0, done.why())
        draw = random.Random(f"turned {name} {at}")
        output = draw.choice(outputs)
        place = draw.randrange(output[1])
        digit = len(output[4]) - 1 - place
        output[4] = output[4][:digit] + ("0" if output[4][digit] == "1"
                                         else "1") + output[4][digit + 1:]
        done = pair(folder, outputs)
        told = f"output {output[0]}" + (f"[{place}]" if output[1] > 1 else "")
        tally.note(f"{name}: the program finds {told} wrong",
                   done.status == 1 and told in done.out.splitlines(), done.why())


def cells_of(folder, text):
    flat = Flat(write(folder, "cells.v", text), None)
    return sum(driver.counts()[0] for driver in flat.sources.values() if isinstance(driver, Cell))


def cells_tries(tally, folder):
    """The numbers of cells, as docs/LANGUAGE.md has them, for each operator at widths up to 8."""
    wrong = []
    for width in range(1, 9):
        due = {"+": 5 * width, "-": 6 * width, "==": 3 * width - 1, "!=": 3 * width, "<": 2 * width,
               ">": 2 * width, "<=": 2 * width + 1, ">=": 2 * width + 1, "&&": 2 * width - 1,
               "||": 2 * width - 1}
        tried = [(operator, width, width if operator in "+-" else 1, count)
                 for operator, count in due.items()]
        tried += [(operator, amount, width, amount * width) for operator in ("<<", ">>")
                  for amount in range(1, 9)]
        for operator, other, result, count in tried:
            text = (f"module t(a, b, y); input [{width - 1}:0] a; input [{other - 1}:0] b; output "
                    f"[{result - 1}:0] y; assign y = a {operator} b; endmodule\n")
            wrong += [f"{operator} at {width}"] * (cells_of(folder, text) != count)
        for operator in UNARY[:-1]:
            text = (f"module t(a, y); input [{width - 1}:0] a; output y; assign y = "
                    f"{operator}a; endmodule\n")
            wrong += [f"{operator} at {width}"] * (cells_of(folder, text) != width - 1
                                                   + (operator not in ("&", "|", "^")))
    tally.note("the cells of each operator are those of the table", not wrong, ", ".join(wrong))


class Words(Tries):
    part = "words"

    def test_words(self):
        cells_tries(self, self.folder)
        for text, number in OWN:
            width = int(number.split("'")[0])
            module, = Reader(f"module t(x, y); input x; output {bounds(width)}y; assign y = "
                             f"{text}; endmodule").modules()
            design = Design({"t": module}, module)
            world = World(design, {("input", "x"): Bit(0, 1)}, None)
            meant = int("".join(str(make(world).one) for _, make in design.outputs),
                        2) == number_of(number.split("'")[1])
            done = pair(self.folder, [("y", width, "", text, number)])
            self.note(f"{text} is {number}", meant and done.status == 0,
                      f"evaluate says {meant}; {done.why()}")
        for start in range(0, DRAWN, AT_ONCE):
            expressions = [Expression(number)
                           for number in range(start, min(start + AT_ONCE, DRAWN))]
            name = f"drawn expressions {start} to {start + len(expressions) - 1}"
            found, done = by_simulator(self.folder, expressions)
            if len(found) != len(expressions):
                self.note(f"{name}: iverilog", False, done.why())
                continue
            wrong = [f"{one.text} at {one.width}"
                     for one, bits in zip(expressions, found) if by_evaluate(one) != bits]
            self.note(f"{name}: evaluate", not wrong, "; ".join(wrong))
            try_program(self, name, self.folder, expressions, found)
