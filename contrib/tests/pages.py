"""Pairs of designs whose reports are of every kind, for the tests of pages."""
from tests.tries import Done, bbeq, example, write

# Each a specification, an implementation, and the words of bbeq.
TWO = "module m(a, b, y, z); input a, b; output y, z; "
HOLE = "module h(i, o); input i; output o; endmodule\n"
WIDE_PINS = ", ".join(f"i{at}" for at in range(25))
FIVE = "module m(a, b, y); input [4:0] a, b; output [4:0] y; "
STATE = "module m(clk, d, q); input clk, d; output q; reg q; "
MIX = "module m(a, b, c, d, y); input a, b, c, d; output y; "

PAIRS = {
    "ternary": (TWO + "and(y, a, b); or(z, a, b); endmodule\n",
                TWO + "or(y, a, b); h u(a, z); endmodule\n" + HOLE, ["--from", "ternary"]),
    "symbolic": (MIX + "assign y = a & b & c & d; endmodule\n",
                 MIX + "wire w; h u(a, w); assign y = 1'b0 & w; endmodule\n" + HOLE,
                 ["--from", "symbolic"]),
    "local": (TWO + "assign y = a; assign z = b; endmodule\n",
              TWO + "wire w; h u(a, w); xor(y, w, w); assign z = b; endmodule\n" + HOLE, []),
    "output": (TWO + "assign y = a; assign z = ~a; endmodule\n",
               TWO + "wire w; h u(a, w); assign y = w; assign z = w; endmodule\n" + HOLE, []),
    "input": (TWO + "assign y = a & b; assign z = b; endmodule\n",
              TWO + "h u(a, y); assign z = b; endmodule\n" + HOLE, []),
    "next": (STATE + "always @(posedge clk) q <= ~d; endmodule\n",
             STATE + "always @(posedge clk) q <= d; endmodule\n", []),
    "several": (TWO + "and(y, a, b); or(z, a, b); endmodule\n",
                TWO + "or(y, a, b); and(z, a, b); endmodule\n", ["--all"]),
    "one": (TWO + "assign y = a ^ b; assign z = a & b; endmodule\n",
            TWO + "g u(a, b, y, z); endmodule\nmodule g(p, q, s, c); input p, q; output s, c; "
            "endmodule\n", []),
    "five": (FIVE + "assign y = {a[4] & b[4], a[3] | b[3], a[2] ^ b[2], ~a[1], a[0] & ~b[0]}; "
             "endmodule\n",
             FIVE + "".join(f"g u{at}(a[{at}], b[{at}], y[{at}]); " for at in range(5))
             + "endmodule\nmodule g(p, q, o); input p, q; output o; endmodule\n",
             ["--from", "expand"]),
    "care": ("module m(a, b, y, ok); input a, b; output y, ok; assign y = a; assign ok = ~b; "
             "endmodule\n",
             "module m(a, b, y); input a, b; output y; h u(a, y); endmodule\n" + HOLE,
             ["--care", "ok"]),
    "nodes": (TWO + "assign y = a ^ b; assign z = a; endmodule\n",
              TWO + "g u(a, b, y); assign z = a; endmodule\nmodule g(p, q, o); input p, q; "
              "output o; endmodule\n", ["--nodes", "0", "--to", "input"]),
    "clauses": (TWO + "assign y = a; assign z = ~b; endmodule\n",
                TWO + "h u(a, y), v(b, z); endmodule\n" + HOLE, ["--clauses", "0"]),
    "ended": (TWO + "assign y = a; assign z = ~b; endmodule\n",
              TWO + "h u(a, y), v(b, z); endmodule\n" + HOLE, ["--to", "output"]),
    "none": (TWO + "assign y = a; assign z = ~b; endmodule\n",
             TWO + "h u(a, y), v(b, z); endmodule\n" + HOLE, ["--to", "input"]),
    "wide": (f"module m({WIDE_PINS}, y); input {WIDE_PINS}; output y; assign y = i0; endmodule\n",
             f"module m({WIDE_PINS}, y); input {WIDE_PINS}; output y; wire w; g u({WIDE_PINS}, w); "
             f"assign y = w; endmodule\nmodule g({WIDE_PINS}, o); input {WIDE_PINS}; output o; "
             "endmodule\n", ["--from", "input", "--nodes", "1000"]),
    "agree": (TWO + "assign y = a & b; assign z = a; endmodule\n",
              TWO + "and(y, b, a); buf(z, a); endmodule\n", []),
    "statement": ("module m(a, y); input a; output y; assign y = a; endmodule\n",
                  "module m(a, y);\n  input a;\n  output y;\n  always @* y = a;\nendmodule\n", []),
    "port": (TWO + "assign y = a; assign z = b; endmodule\n",
             "module m(a, y); input a; output y; assign y = a; endmodule\n", []),
}
EXAMPLES = {name: [] for name in ("adder", "alu", "buffer", "carry", "counter", "lanes", "mixer",
                                  "nor", "packet", "stages", "sum", "twins", "undefined")}
EXAMPLES |= {"holes": ["--from", "expand"], "shared": ["--shared", "--from", "expand"]}
RUP = {"right": ("formula.cnf", "proof.drup"), "wrong": ("formula.cnf", "short.drup")}


class Made:
    """A pair with its report, in a folder: the words for `page`, and what bbeq printed."""

    def __init__(self, folder: str, name: str, sides: list, done: Done, shared: bool) -> None:
        self.name, self.sides, self.text = name, sides, done.out
        self.words = [write(folder, f"{name}.report", done.out), *sides,
                      *["--shared"] * shared]


def made(folder: str, name: str) -> Made:
    """The pair of that name: one of those above, an example, or a refutation."""
    if name in PAIRS:
        spec, impl, words = PAIRS[name]
        sides = [write(folder, f"{name}.spec.v", spec), write(folder, f"{name}.impl.v", impl)]
    elif name in RUP:
        sides, words = [example("refutation", file) for file in RUP[name]], ["--rup"]
    else:
        sides, words = [example(name, "spec.v"), example(name, "impl.v")], EXAMPLES[name]
    return Made(folder, name, sides, bbeq(*words, *sides), "--shared" in words)


NAMES = [*EXAMPLES, *PAIRS, *RUP]
