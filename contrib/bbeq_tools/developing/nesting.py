"""Small pairs that are drawn, a seed for each, with two or three boxes: nested, so that each sees
all pins of those before it, or nearly so. What a box sees may stand at its pins in any order and
twice, and may be a net of its own with the same value."""
import random

MOST_CONTENTS = 14  # Bits of the contents of all boxes, so that all can be tried.
GATES = ("and", "nand", "or", "nor", "xor", "xnor")


class Nested:
    """The nets of an implementation, each with what it is a copy of, and its boxes as names of
    modules with their input and output nets."""

    def __init__(self, draw, is_nested, boxes):
        self.draw, self.nets, self.items, self.boxes, self.count, self.left = draw, list("abc"), [
            ], [], 0, MOST_CONTENTS
        self.inverse = {}
        for _ in range(draw.randrange(3)):
            self.gate()
        for place in range(boxes):
            self.box(place, is_nested)
            if draw.randrange(2):
                self.gate()

    def net(self):
        self.count += 1
        return f"n{self.count}"

    def gate(self):
        out, ins = self.net(), self.draw.sample(self.nets, 2)
        if self.draw.randrange(3):
            self.items.append(f"{self.draw.choice(GATES)}({out}, {ins[0]}, {ins[1]});")
        else:
            self.items.append(f"assign {out} = ~{ins[0]};")
            self.inverse[out] = ins[0]
        self.nets.append(out)

    def spelt(self, net):
        """The net, or another one with its value at every vector."""
        kind = self.draw.randrange(4)
        if kind < 2:
            return net
        other = self.net()
        if net in self.inverse:
            self.items.append(f"not({other}, {self.inverse[net]});")
        else:
            self.items.append(f"buf({other}, {net});" if kind == 2
                              else f"assign {other} = ~(~{net});")
        return other

    def box(self, place, is_nested):
        """A box with what it sees of those before it, and then with nets of its own as far as there
        is room."""
        seen = sorted({net for _, ins, outs, real in self.boxes for net in real + outs})
        if seen and not is_nested:
            seen.remove(self.draw.choice(seen))
        own = [net for net in self.nets if net not in seen]
        real = seen + self.draw.sample(own, min(len(own), self.draw.choice((0, 0, 1) if len(seen)
                                                                           > 1 else (0, 1, 1))))
        if real and 4 << len(real) <= self.left and not self.draw.randrange(3):
            real.append(self.draw.choice(real))
        outs = 1 + (4 << len(real) <= self.left and self.draw.randrange(2))
        if outs << len(real) > self.left:
            return
        self.left -= outs << len(real)
        self.draw.shuffle(real)
        nets = [self.net() for _ in range(outs)]
        self.boxes.append((f"b{place}", [self.spelt(net) for net in real], nets, real))
        self.nets += nets

    def text(self, top, filling, ends):
        """The module with this name on top, where boxes are left as they are or are gates."""
        items, modules = list(self.items), []
        for name, ins, outs, real in self.boxes:
            if filling == "box":
                pins = [f"i{at}" for at in range(len(ins))], [f"o{at}" for at in range(len(outs))]
                items.append(f"{name} u{name}({', '.join(ins + outs)});")
                inputs = f" input {', '.join(pins[0])};" if ins else ""
                modules.append(f"module {name}({', '.join(pins[0] + pins[1])});{inputs} output "
                               f"{', '.join(pins[1])}; endmodule")
            else:
                read = real if filling == "own" and real else list("abc")
                items += [f"{self.draw.choice(GATES)}({out}, {self.draw.choice(read)}, "
                          f"{self.draw.choice(read)});" for out in outs]
        items += [f"buf(y[{at}], {end});" for at, end in enumerate(ends)]
        self.draw.shuffle(items)
        modules.append(f"module {top}(a, b, c, y); input a, b, c; output [0:{len(ends) - 1}] y; "
                       f"{' '.join(items)} endmodule")
        self.draw.shuffle(modules)
        return "\n".join(modules) + "\n"


def drawn_nested(seed):
    """A specification and an implementation. Of five seeds the boxes can be filled with gates of
    what they read for the first three, and perhaps with gates of the inputs for the fourth; for the
    fifth there is a mistake elsewhere too."""
    draw = random.Random(f"nested {seed}")
    circuit = Nested(draw, draw.randrange(2) == 0, draw.choice((2, 3, 3)))
    boxed = [net for _, _, outs, _ in circuit.boxes for net in outs]
    ends = [draw.choice(boxed + circuit.nets), *(draw.choice(boxed) for _ in range(2))]
    implementation = circuit.text("t", "box", ends)
    if seed % 5 == 4:
        ends[draw.randrange(len(ends))] = draw.choice(circuit.nets)
    return circuit.text("s", "any" if seed % 5 == 3 else "own", ends), implementation
