"""Small pairs of texts that are drawn, a seed for each: an implementation with up to three boxes,
and a specification that is the same with gates in the place of the boxes, with a mistake elsewhere,
or another circuit with the same ports and registers."""
import random

MOST_CONTENTS = 12  # Bits of the contents of all boxes, so that all can be tried.
GATES = ("and", "nand", "or", "nor", "xor", "xnor")
MODULES = {
    "ha": "module ha(x, y, s, c); input x, y; output s, c; xor(s, x, y); and(c, x, y); endmodule",
    "ff": "module ff(input c, input d, output reg q); always @(posedge c) q <= d; endmodule",
    "b11": "module b11(i, o); input i; output o; endmodule",
    "b12": "module b12(i, o, p); input i; output o, p; endmodule",
    "b21": "module b21(i, j, o); input i, j; output o; endmodule",
    "b22": "module b22(i, o); input [1:0] i; output [0:1] o; endmodule",
    "n21": "module n21(i, j, o); input i, j; output o; b21 u(.o(o), .j(j), .i(i)); endmodule",
}
BELOW = {"n21": ("b21",)}
TRIVIA = ("", "", '(* src = "a.v:1 *)" *)', "/* assign y = 1'b0; // */", "// wire a; /*\n",
          "`celldefine\n")
NUMBERS = ("1'b0", "1'b1", "2'd2", "3'b101", "2'h7", "1'd3", "1'o10", "3 'B1_0", "1")
BITWISE, SUMS, ORDERS = ("&", "|", "^", "~^", "^~"), ("+", "-"), ("==", "!=", "<", "<=", ">", ">=")
WORDS = (*SUMS, *SUMS, *ORDERS, "<<", ">>", "&&", "||")
FOLDS = ("!", "&", "~&", "|", "~|", "^", "~^", "^~")
BOXES = {"b11": (1, 1), "b12": (1, 2), "b21": (2, 1), "b22": (2, 2), "n21": (2, 1)}


class Circuit:
    """What drives each net, from the ports and registers on. `bits` and `wide` are what may be
    read, of one bit and of two; an item is a text, or a box with the bits that it reads and
    drives."""

    def __init__(self, draw, frame, boxes, is_apart=False, kinds=tuple(BOXES)):
        self.draw, self.frame, self.used, self.driven, self.kinds, self.same = (draw, frame, set(),
                                                                                [], kinds, {})
        self.bits, self.wide, self.items, self.count, self.left = list(frame.bits), list(
            frame.wide), [], 0, MOST_CONTENTS * (1 + is_apart)
        for place in range(2 + boxes + draw.randrange(3) + 4 * is_apart):
            if is_apart and draw.randrange(2):
                self.bits, self.wide = list(frame.bits), list(frame.wide)
            if boxes and draw.randrange(3):
                self.box()
                boxes -= 1
            else:
                draw.choice((self.gate, self.gate, self.split, self.assign, self.vector,
                             self.supply, self.half_adder))()
        boxed = [bit for item in self.items if isinstance(item, tuple) for bit in item[3]]
        self.last = self.driven + 4 * boxed if is_apart else self.bits[-4:]

    # What is read: an operand, and an expression of any width.

    def bit(self):
        return self.draw.choice(self.bits[-3:] if self.draw.randrange(2) else self.bits)

    def leaf(self):
        kind = self.draw.randrange(8)
        if kind == 0:
            return self.draw.choice(NUMBERS)
        return self.draw.choice(self.wide) if kind < 3 and self.wide else self.bit()

    def operator(self):
        return self.draw.choice(BITWISE if self.draw.randrange(4) else WORDS)

    def expression(self, depth=2):
        if not depth:
            return self.leaf()
        a, b, c = [self.expression(depth - 1) for _ in range(3)]
        one, other = self.operator(), self.operator()
        return self.draw.choice((a, f"~{self.leaf()}", f"({a} {one} {b})",
                                 f"({a} {one} {b} {other} {c})", f"({a} ? {b} : {c})",
                                 f"({self.comparison()} ? {a} : {b})", f"~~({a})",
                                 f"{{{self.bit()}, {self.bit()}}}", f"{{2{{{self.bit()}}}}}",
                                 f"{self.draw.choice(('', '~'))}{self.draw.choice(FOLDS)}({a})"))

    def vector_of(self):
        """Two bits side by side."""
        return self.draw.choice((*self.wide, f"{{{self.bit()}, {self.bit()}}}"))

    def comparison(self):
        return (f"{self.vector_of()} {self.draw.choice(ORDERS)} "
                f"{self.draw.choice((self.vector_of(), self.bit()))}")

    def sum(self):
        return (f"{self.vector_of()} {self.draw.choice(SUMS)} "
                f"{self.draw.choice((self.vector_of(), self.bit()))}")

    def terminal(self):
        return self.draw.choice((self.bit(), self.bit(), self.bit(),
                                 f"{self.bit()} & ~{self.bit()}", "1'b1", self.comparison(),
                                 f"{self.draw.choice(FOLDS)}{self.vector_of()}")[
            :7 if not self.draw.randrange(3) else 5])

    # What drives nets. The nets of gates and instances need no declaration.

    def net(self):
        self.count += 1
        return self.draw.choice((f"n{self.count}", f"\\n.{self.count} "))

    def drive(self, item, *bits):
        self.items.append(item)
        self.bits += bits
        self.driven += bits

    def gate(self):
        out, ins = self.net(), ", ".join(self.terminal() for _ in range(1 + self.draw.randrange(3)))
        name = self.draw.choice(("", f" g{self.count}"))
        self.drive(f"{self.draw.choice(GATES)}{name}({out}, {ins});", out)

    def split(self):
        one, other = self.net(), self.net()
        self.drive(f"{self.draw.choice(('buf', 'not'))}({one}, {other}, {self.terminal()});", one,
                   other)

    def assign(self):
        out, value = self.net(), self.expression()
        declared = self.draw.choice((f"wire {out} =", f"wire {out}; assign {out} =",
                                     f"assign {out} ="))
        self.drive(f"{declared} {value};", out)

    def vector(self):
        net, (left, right) = self.net(), self.draw.choice(((1, 0), (0, 1), (7, 6)))
        value = self.sum() if self.draw.randrange(3) == 0 else self.expression()
        assigned = self.draw.choice(
            (f"assign {net} = {value};", f"assign {{{net}[{right}], {net}[{left}]}} = {value};",
             f"assign {net}[{left}] = {self.bit()}, {net}[{right}] = {value};"))
        self.drive(f"wire [{left}:{right}] {net}; {assigned}", f"{net}[{left}]", f"{net}[{right}]")
        self.wide += [net, f"{net}[{left}:{right}]"]

    def supply(self):
        net = self.net()
        self.drive(f"supply{self.draw.randrange(2)} {net};", net)

    def half_adder(self):
        one, other, a, b = self.net(), self.net(), self.bit(), self.terminal()
        self.used.add("ha")
        name = f"ha h{self.count}"
        self.drive(self.draw.choice((f"{name}({a}, {b}, {one}, {other});",
                                     f"{name}(.c({one}), .x({b}), .s({other}), .y({a}));",
                                     f"supply0 {one}; {name}({a}, {b}, , {other});")), one, other)

    def box(self):
        kind = self.draw.choice(self.kinds)
        ins, outs = BOXES[kind]
        if outs << ins <= self.left:
            self.left -= outs << ins
            self.used |= {kind, *BELOW.get(kind, ())}
            nets = [self.net() for _ in range(outs)]
            self.drive((kind, self.count, [self.bit() for _ in range(ins)], nets, list(self.bits)),
                       *nets)

    # The text, where boxes are left as they are ("box"), or are gates of what they read ("own"),
    # the same for all of a module ("same"), of what some box reads ("pins"), or of anything that
    # stands before them ("any").

    def item(self, item, filling):
        if isinstance(item, str):
            return item
        kind, number, ins, outs, before = item
        if filling == "box":
            pins = [f"{{{ins[0]}, {ins[1]}}}",
                    f"{{{outs[0]}, {outs[1]}}}"] if kind == "b22" else ins + outs
            return f"{kind} u{number}({', '.join(pins)});"
        if filling == "same":
            gates = [self.gate_of(kind, pin, len(ins)) for pin in range(len(outs))]
            return " ".join(f"{gate}({out}, {ins[one]}, {ins[other]});"
                            for out, (gate, one, other) in zip(outs, gates))
        pins = {bit for item in self.items if isinstance(item, tuple) for bit in item[2]}
        read = {"own": ins, "pins": [bit for bit in before if bit in pins], "any": before}[filling]
        return " ".join(f"{self.draw.choice(GATES)}({out}, {self.draw.choice(read)}, "
                        f"{self.draw.choice(read)});" for out in outs)

    def gate_of(self, kind, pin, ins):
        """The gate of an output pin of a module, and which of its input pins it reads."""
        key = BELOW.get(kind, (kind,))[0], pin
        if key not in self.same:
            self.same[key] = (self.draw.choice(GATES), self.draw.randrange(ins),
                              self.draw.randrange(ins))
        return self.same[key]

    def text(self, top, filling, ends):
        """The module with this name on top, in any order; `ends` has what goes to each output and
        register."""
        items = [self.item(item, filling)
                 for item in self.items] + self.frame.ends(ends) + [self.draw.choice(TRIVIA)]
        self.draw.shuffle(items)
        boxed = {name for name in self.used if name[0] in "bn"}
        modules = [MODULES[name] for name in sorted(self.used - boxed | self.frame.used
                                                    | (boxed if filling == "box" else set()))]
        modules.append(f"module {top}({', '.join(self.frame.ports)});\n{self.frame.declared} "
                       f"{' '.join(items)}\nendmodule")
        self.draw.shuffle(modules)
        return "\n".join(modules) + "\n"


class Frame:
    """What the two have in common: ports and registers."""

    def __init__(self, draw, outs=0):
        self.draw, self.bits, self.wide, self.used = draw, ["a", "b[1]", "b[0]"], ["b"], set()
        self.ports, declared = ["a", "b", "y"], ["input a;", "input [1:0] b;"]
        self.registers, self.edge = (["q", "r.q"][:max(0, draw.randrange(4) - 1)],
                                     draw.choice(("posedge", "negedge")))
        if self.registers:
            self.ports.insert(draw.randrange(3), "clk")
            declared.append("input clk;")
            self.bits += ["q", "s"][:len(self.registers)]
        if "q" in self.registers:
            declared.append("reg q;")
        if "r.q" in self.registers:
            self.used.add("ff")
        self.outs = [f"y[{at}]"
                     for at in range(outs)] or (["y"] if draw.randrange(2) else ["y[0]", "y[1]"])
        self.declared = " ".join([*declared, "output y;" if self.outs == ["y"]
                                  else f"output [0:{len(self.outs) - 1}] y;"])

    def ends(self, ends):
        states = {"q": f"always @({self.edge} clk) q <= {{}};", "r.q": "ff r(clk, {}, s);"}
        outs = [self.draw.choice(("buf({}, {});", "assign {} = {};")).format(*pair)
                for pair in zip(self.outs, ends)]
        return outs + [states[register].format(end)
                       for register, end in zip(self.registers, ends[len(self.outs):])]


def drawn_pair(seed):
    """A specification and an implementation; of five seeds the specification of the first can be
    met."""
    draw = random.Random(seed)
    return paired(seed, draw, Frame(draw), (0, 1, 1, 2, 2, 3, 3))


def drawn_apart(seed):
    """The same with up to four boxes and with more outputs, of which some share nothing."""
    draw = random.Random(f"apart {seed}")
    return paired(seed, draw, Frame(draw, 3 + draw.randrange(3)), (1, 2, 3, 4, 4), True)


def drawn_shared(seed):
    """A pair with two or three boxes of one module or of two, most of whose outputs are those of
    boxes. For one seed of three one content serves all boxes of a module, for one each box has
    contents of its own, and for one there is a mistake elsewhere too."""
    draw = random.Random(f"shared {seed}")
    frame = Frame(draw, 3)
    kinds = draw.sample(("b11", "b12", "b21", "n21"), 1 + draw.randrange(2))
    circuit = Circuit(draw, frame, draw.choice((2, 3, 3)), kinds=kinds)
    boxed = [bit for item in circuit.items if isinstance(item, tuple) for bit in item[3]]
    places = len(frame.outs + frame.registers)
    ends = (draw.sample(boxed, len(boxed)) + [draw.choice(boxed or circuit.last)
                                              for _ in range(places)])[:places]
    implementation = circuit.text("t", "box", ends)
    for _ in range(2 * (seed % 3 == 2)):
        ends[draw.randrange(len(ends))] = draw.choice(circuit.bits)
    return circuit.text("s", "own" if seed % 3 == 1 else "same", ends), implementation


def drawn_cared(seed):
    """A pair with a care output, its name, and whether boxes of one module share their contents.
    Where that output is 0 some outputs of the specification are others; for one seed of three there
    is a mistake elsewhere too, and for one it is another circuit."""
    draw = random.Random(f"care {seed}")
    frame, shared = Frame(draw), not draw.randrange(3)
    kinds = draw.sample(("b11", "b12", "b21", "n21"),
                        1 + draw.randrange(2)) if shared else tuple(BOXES)
    circuit = Circuit(draw, frame, draw.choice((1, 1, 2, 2, 3)), kinds=kinds)
    ends = [draw.choice(circuit.last) for _ in frame.outs + frame.registers]
    implementation = circuit.text("t", "box", ends)
    if seed % 3 == 1:
        ends[draw.randrange(len(ends))] = draw.choice(circuit.bits)
    if seed % 3 == 2:
        circuit = Circuit(draw, frame, 0)
        ends = [draw.choice(circuit.last) for _ in ends]
    a, b = draw.choice(frame.bits), draw.choice(frame.bits)
    care = draw.choice((a, f"~{a}", f"{a} & {b}", f"{a} | {b}", f"{a} ^ {b}", "1'b1",
                        "1'b0")[:5 + 2 * (seed % 10 == 0)])
    ends = [end if draw.randrange(5) < 3 else f"({care} ? {end} : {draw.choice(circuit.bits)})"
            for end in ends]
    name, declared = draw.choice((("k", "output k;"), ("k[0]", "output [0:0] k;"),
                                  ("k[7]", "output [7:7] k;")))
    frame.ports.insert(draw.randrange(len(frame.ports)), "k")
    frame.declared += f" {declared}"
    circuit.items.append(f"assign {name} = {care};")
    return (circuit.text("s", "same" if shared else "own", ends), implementation), name, shared


def paired(seed, draw, frame, boxes, is_apart=False):
    circuit = Circuit(draw, frame, draw.choice(boxes), is_apart)
    ends = [draw.choice(circuit.last) for _ in frame.outs + frame.registers]
    implementation = circuit.text("t", "box", ends)
    if seed % 5 == 3:
        ends[draw.randrange(len(ends))] = draw.choice(circuit.bits)
    if seed % 5 == 4:
        circuit = Circuit(draw, frame, 0)
        ends = [draw.choice(circuit.last) for _ in ends]
    return circuit.text("s", {1: "any", 2: "pins"}.get(seed % 5, "own"), ends), implementation
