"""The tries of the order in which `gates` writes ports and registers: what is told of a pair does
not depend on it, and what is decided where they are left as they are is decided in the order
too."""
import os
import sys

from bbeq_tools.developing.drawn import drawn_pair
from tests.tries import (DESIGNS, HERE, TOP, Tries, bbeq, designs_in, example, read, run, script,
                         write)

DRAWN = int(os.environ.get("CHECK_ORDERED", "100"))
# Two ways to write what is open within many nodes where the numbers stand one behind the other.
WIDE = {
    "an adder of 32 bits": ("input [31:0] a, b, input ci, output [31:0] s, output co",
                            "assign {co, s} = a + b + ci;", """
  wire [32:0] c; assign c[0] = ci; assign co = c[32]; assign s = a ^ b ^ c[31:0];
  assign c[32:1] = a & b | c[31:0] & (a | b);"""),
    "a shifter of 32 bits": ("input [31:0] a, input [4:0] n, input r, output [31:0] y",
                             "assign y = r ? a >> n : a << n;", """
  genvar i; wire [31:0] t, u; assign u = t >> n;
  for (i = 0; i < 32; i = i + 1) begin
    assign t[i] = r ? a[i] : a[31 - i]; assign y[i] = r ? u[i] : u[31 - i];
  end"""),
    "a sum of registers": ("input clk, input [31:0] a, b, output reg [31:0] s", """reg [31:0] p, q;
  always @(posedge clk) begin p <= a; q <= b; s <= p + q; end""", """reg [31:0] p, q;
  always @(posedge clk) begin p <= a; q <= b; s <= p - ~q - 1; end"""),
    "a comparison of 32 bits": ("input [31:0] a, b, output y", "assign y = a < b;",
                                "wire [32:0] d = a - b; assign y = d[32];"),
}
HOLE = """module hole_top(input clk, input [3:0] a, b, output [3:0] y, output reg [3:0] q);
  wire [3:0] t; hole u(.b(b), .a(a), .o(t)); assign y = t; always @(posedge clk) q <= a + b;
endmodule
module hole(input [3:0] b, a, output [3:0] o); endmodule
"""
# `gates` with an order that is drawn in the place of its own.
ANY_ORDER = f"""import random, sys
sys.path.insert(0, {HERE!r})
from bbeq_tools.rtl import arrangement, gates
draw = random.Random(1)
arrangement.best_order = lambda roots, sources, groups: [
    draw.sample(list(group), len(group)) for group in groups]
gates.main()
"""
NAMED = """module m(input clk, input [7:0] a, b, output [7:0] s);
  reg \\a[3] ; always @(posedge clk) \\a[3] <= b[0]; assign s = a + b + \\a[3] ;
endmodule
"""


def gates(folder, source, name, *words):
    made = os.path.join(folder, name)
    done = run([script("gates"), *words, source, "-o", made])
    return made, done


def in_any_order(folder, source):
    made = os.path.join(folder, "drawn.v")
    return made, run([sys.executable, "-c", ANY_ORDER, source, "-o", made])


def verdict(done):
    return done.out.splitlines()[-1].removeprefix("verdict ") if done.out else "none"


def try_pair(tally, name, folder, spec, implementation, *words):
    """The verdicts of one implementation with the specification as it is and in the order; in any
    order it is no other."""
    made, done = gates(folder, implementation, "impl.v", "--keep-order")
    texts = [gates(folder, spec, "kept.v", "--keep-order"), gates(folder, spec, "ordered.v"),
             in_any_order(folder, spec)]
    found = [verdict(bbeq(text, made, *words)) for text, _ in texts]
    decided = set(found) - {"open"}
    right = decided <= {"error"} or decided <= {"repairable"}
    tally.note(f"{name}: {found[0]}, {found[1]} in the order, {found[2]} in any",
               right and (found[1] != "open" or found[0] == "open"),
               " ".join(one.why() for one in [done, *(one for _, one in texts)]))
    return found[:2]


def wide_tries(tally, folder):
    for name, (ports, one, other) in WIDE.items():
        texts = [f"module m({ports});\n  {body}\nendmodule\n" for body in (one, other)]
        paths = [write(folder, side, text) for side, text in zip(("one.sv", "other.sv"), texts)]
        found = try_pair(tally, name, folder, *paths, "--nodes", "100000", "--to", "input")
        tally.note(f"{name} is decided by diagrams in the order alone",
                   found == ["open", "repairable"])


def both_ways(folder, source):
    return gates(folder, source, "kept.v", "--keep-order")[0], *gates(folder, source, "ordered.v")


def form_tries(tally, folder):
    kept, ordered, done = both_ways(folder, write(folder, "hole.v", HOLE))
    right = read(kept) == read(ordered) and "module hole(b, a, o);" in read(ordered)
    tally.note("gates leaves the ports of a text with a box", right, done.why())
    kept, ordered, _ = both_ways(folder, write(folder, "named.v", NAMED))
    drawn, done = in_any_order(folder, os.path.join(folder, "named.v"))
    right = all("input [7:0] a;" in read(text) and bbeq(kept, text).status == 0
                for text in (ordered, drawn))
    tally.note("gates leaves a port whole where a net has the name of a bit of it",
               right and "input \\b[3] ;" in read(drawn), done.why())
    ports, one, _ = WIDE["a sum of registers"]
    kept, ordered, _ = both_ways(folder, write(folder, "sum.v",
                                               f"module m({ports});\n  {one}\nendmodule\n"))
    done = run([script("names"), kept, ordered])
    right = read(kept) != read(ordered) and done.out.startswith("both have the same")
    tally.note("names takes ports and registers that are taken apart for whole", right, done.why())


def reader_tries(tally, folder):
    """What reads a report reads one of a text that is taken apart."""
    ports, one, _ = WIDE["a sum of registers"]
    texts = [f"module m({ports});\n  {body}\nendmodule\n".replace("31", "3")
             for body in (one, one.replace("p + q", "p - q"))]
    (right, _), (wrong, _) = (gates(folder, write(folder, f"{at}.sv", text), f"{at}.v",
                                    "--keep-order") for at, text in enumerate(texts))
    drawn, _ = in_any_order(folder, os.path.join(folder, "0.sv"))
    report = write(folder, "report", bbeq(drawn, wrong).out)
    for name, words, wanted in (("wave", ["--vcd", os.path.join(folder, "w.vcd")],
                                 "(named by the report: s[3])"), ("why", [], "no box is seen")):
        done = run([script(name), report, drawn, wrong, *words])
        tally.note(f"{name} reads a text that is taken apart",
                   done.status == 0 and wanted in done.out, done.why())
    done = run([script("order"), "--no-count", drawn, "-o", os.path.join(folder, "again.v")])
    tally.note("order reads a text that is taken apart", done.status == 0
               and bbeq(os.path.join(folder, "again.v"), right).status == 0, done.why())


class Ordered(Tries):
    part = "ordered"

    def test_ordered(self):
        wide_tries(self, self.folder)
        reader_tries(self, self.folder)
        form_tries(self, self.folder)
        for source in designs_in(DESIGNS):
            kept, ordered, done = both_ways(self.folder, source)
            if "0 boxes" in read(kept).splitlines()[0]:
                drawn, other = in_any_order(self.folder, source)
                answers = [bbeq(kept, ordered), bbeq(ordered, kept), bbeq(ordered, drawn)]
                right = done.status == other.status == 0 and all(answer.status in (0, 3)
                                                                 for answer in answers)
                self.note(f"{os.path.basename(source)}: as it is, in the order and in any agree",
                          right, answers[0].why())
        for name in sorted(os.listdir(os.path.join(TOP, "examples"))):
            pair = example(name, "spec.v"), example(name, "impl.v")
            if "verdict" in bbeq(*pair).out:  # One example is there to be refused.
                try_pair(self, f"the example {name}", self.folder, *pair)
        drawn_tries(self, self.folder)


def drawn_tries(tally, folder):
    """Of some drawn pairs yosys does not read a text, or leaves a register out that stores a
    constant; others take their place."""
    seed, verdicts = 0, []
    while len(verdicts) < DRAWN:
        texts = [write(folder, name, text) for name, text in zip(("s.v", "i.v"), drawn_pair(seed))]
        made = [gates(folder, text, f"read{side}.v", "--keep-order")[0]
                for side, text in enumerate(texts)]
        if all(map(os.path.exists, made)) and "verdict" in bbeq(*made).out:
            verdicts.append(try_pair(tally, f"drawn pair {seed}", folder, *texts)[1])
        seed += 1
    shares = {name: verdicts.count(name) for name in ("error", "repairable")}
    tally.note(f"drawn pairs: {shares}, at least a fifth each",
               all(5 * count >= DRAWN for count in shares.values()))
