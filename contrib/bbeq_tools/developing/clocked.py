"""Pairs with registers of one to three clocks and of both edges, drawn, a seed for each, in forms
that a simulator reads as they are. The implementation has up to two boxes; the specification has a
gate in the place of each, and for one seed of three a mistake elsewhere. A clock is read by
registers alone, or by an output too."""
import random

GATES = ("and", "or", "xor", "nand", "nor", "xnor")
HOLE = "module hole(input i, input j, output o); endmodule"


class Clocked:
    """A drawn pair: its two texts, its clocks, registers and outputs, and the name of the care
    output of its specification, where it has one."""

    def __init__(self, seed, reads_clocks=False):
        self.draw = draw = random.Random(f"clocked {seed}")
        self.clocks = [f"c{number}" for number in range(1 + draw.randrange(3))]
        self.registers = [f"q{number}" for number in range(2 + draw.randrange(3))]
        self.care = "k" if draw.randrange(3) == 0 else None
        self.outputs = ["y", "z"]
        self.edges = [f"{draw.choice(('posedge', 'negedge'))} {draw.choice(self.clocks)}"
                      for _ in self.registers]
        self.gates, bits = [], ["a", "b", *self.registers]
        self.holes = draw.sample(range(4, 8), 1 + draw.randrange(2))
        for number in range(8):
            self.gates.append((draw.choice(GATES), f"n{number}", *draw.sample(bits[-5:], 2)))
            bits.append(f"n{number}")
        ends = [draw.choice(bits[-4:]) for _ in (*self.registers, *self.outputs)]
        if reads_clocks:  # An output may, as that of a gated clock does.
            ends[-1] = f"{ends[-1]} ^ {draw.choice(self.clocks)}"
        self.implementation = self.text("t", self.outputs, ends, self.holes)
        if seed % 3 == 2:
            ends[draw.randrange(len(ends))] = draw.choice(bits)
        outputs = self.outputs + [self.care] * bool(self.care)
        self.specification = self.text("s", outputs, [*ends, draw.choice(bits)], ())

    def text(self, top, outputs, ends, holes):
        """The module with this name on top, with `ends` for its registers and outputs, and with
        boxes in the place of some gates."""
        items = [f"hole u{place}({one}, {other}, {out});" if place in holes
                 else f"{gate}({out}, {one}, {other});"
                 for place, (gate, out, one, other) in enumerate(self.gates)]
        items += [f"always @({edge}) {register} <= {end};"
                  for edge, register, end in zip(self.edges, self.registers, ends)]
        items += [f"assign {out} = {end};"
                  for out, end in zip(outputs, ends[len(self.registers):])]
        inputs = ", ".join([*self.clocks, "a", "b"])
        return "\n  ".join([*[HOLE] * bool(holes),
                            f"module {top}({inputs}, {', '.join(outputs)});",
                            f"input {inputs};", f"output {', '.join(outputs)};",
                            f"reg {', '.join(self.registers)};", *items]) + "\nendmodule\n"

    def with_contents(self):
        """The implementation with a drawn gate as the contents of its boxes."""
        return self.implementation.replace(
            HOLE, HOLE.replace("endmodule", f"{self.draw.choice(GATES)}(o, i, j); endmodule"))
