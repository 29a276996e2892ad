"""The tries of `gates --undef care`: the care output is 0 at the vectors at which an output of the
RTL is x, and nowhere else, and elsewhere the outputs are those of the RTL."""
import os

from tests.tries import Tries, bbeq, is_told, read, run, script, write

BODIES = {
    "a default": "always @* case (a[1:0]) 0: y = a[2] & a[3]; 1: y = a[2]; 2: y = a[3]; default: y "
                 "= 1'bx; endcase",
    "an operand that decides": "wire t = a[0] ? 1'bx : a[1]; always @* y = t & a[2] | a[3];",
    "a choice of the same": "wire t = a[0] ? 1'bx : a[1]; always @* y = t ? a[2] : a[3];",
    "an exclusive or": "wire t = a[0] ? 1'bx : a[1]; always @* y = ~(t ^ a[2]) & ~a[3];",
    "two of them": "wire t = a[0] ? 1'bx : a[1]; wire u = a[2] ? 1'bx : a[3]; always @* y = ~(t | "
                   "u);",
}
MODULE = "module m(input [3:0] a, output reg y, output z);\n  {}\n  assign z = ^a;\nendmodule\n"
BENCH = """module bench;
  reg [3:0] a; wire y, z, v, w, c; integer at;
  rtl one(a, y, z); m two({ports});
  initial begin
    for (at = 0; at < 16; at = at + 1) begin a = at; #1 $display("%b%b%b%b%b", y, z, v, w, c); end
  end
endmodule
"""
REGISTER = ("module m(input c, a, b, output reg q); always @(posedge c) q <= a ? 1'bx : b; "
            "endmodule\n")

STATES = """module m(input clk, rst, go, output reg [1:0] y);
  reg [2:0] s;
  always @(posedge clk) {next}
  always @* case (s) 1: y = {{1'b0, go}}; 2: y = 1; 4: y = 2; default: y = 2'b{x}{x}; endcase
endmodule
"""
# Next states, and what becomes of the invariant.
NEXT = {
    "one hot": ("if (rst) s <= 1; else case (s) 1: s <= go ? 2 : 1; 2: s <= 4; 4: s <= go ? 1 : 4; "
                "default: s <= 3'b{x}{x}{x}; endcase", "kept"),
    "a way out": ("if (rst) s <= 1; else case (s) 1: s <= go ? 2 : 1; 2: s <= 4; 4: s <= go ? 5 : "
                  "4; default: s <= 3'b{x}{x}{x}; endcase", "broken"),
    "an input that hides it": ("s <= go & ~s[2] ? 3'b{x}{x}{x} : rst ? 1 : {{s[1:0], s[2]}};",
                               "broken"),
    "gates": ("s <= rst ? 1 : {{s[1], s[0], s[2] & ~(s[1] & (s[0] ? 1'b{x} : go)) | 1'b0 ^ s[2] "
              "& s[0]}};", "kept"),
}
# For each state whether the invariant is 1, and whether some inputs bring an x.
STATE_BENCH = """module bench;
  reg clk, rst, go; wire [1:0] y, z; wire k; integer state, at; reg bad;
  rtl one(clk, rst, go, y); m two(clk, rst, go, z, k);
  initial for (state = 0; state < 8; state = state + 1) begin
    bad = 0;
    for (at = 0; at < 4; at = at + 1) begin
      clk = 0; {rst, go} = at; #1 one.s = state; two.s = state;
      #1 if (^y === 1'bx) bad = 1;
      #1 clk = 1;
      #1 if (^one.s === 1'bx) bad = 1;
    end
    clk = 0; #1 two.s = state; #1 $display("%b%b", k, bad);
  end
endmodule
"""


class Care(Tries):
    part = "care"

    def test_care(self):
        for name, body in BODIES.items():
            source = write(self.folder, "m.v", MODULE.format(body))
            made = os.path.join(self.folder, "made.v")
            done = run([script("gates"), "--undef", "care", "--keep-order", source, "-o", made])
            self.note(f"gates --undef care of {name} says what it writes", done.status == 0
                      and done.err == "gates: care is 0 where y would be undefined: compare with "
                      "--care care\ngates: where it is 0, these are free too: z\n", done.why())
            rows = self.simulated(source, made)
            wrong = [row for row in rows if (row[4] == "0") != ("x" in row[:2])
                     or row[4] == "1" and row[:2] != row[2:4]]
            self.note(f"gates --undef care of {name}", len(rows) == 16 and not wrong, str(rows))
            filled = write(self.folder, "one.v", MODULE.format(body.replace("1'bx", "a[3]")))
            run([script("gates"), filled, "-o", os.path.join(self.folder, "one")])
            done = bbeq(made, os.path.join(self.folder, "one"), "--care", "care")
            self.note(f"any bit will do in {name}", done.status == 0, done.why())

    def simulated(self, source, made):
        rtl = write(self.folder, "rtl.v", read(source).replace("module m(", "module rtl("))
        ports = ".a(a), .y(v), .z(w), .care(c)"
        bench = write(self.folder, "bench.v", BENCH.replace("{ports}", ports))
        program = os.path.join(self.folder, "bench.vvp")
        run(["iverilog", "-g2005", "-o", program, bench, rtl, made])
        return run(["vvp", "-n", program]).out.split()

    def test_invariant(self):
        """It is 1 in the states in which no inputs bring an x, and the program says whether they
        lead to such states alone."""
        for name, (body, answer) in NEXT.items():
            text = STATES.replace("{next}", body)
            source = write(self.folder, "m.v", text.format(x="x"))
            made = os.path.join(self.folder, "made.v")
            done = run([script("gates"), "--undef", "invariant", source, "-o", made])
            self.note(f"gates --undef invariant of {name}", done.status == 0 and "y or the next "
                      "state of s undefined: compare with --invariant invariant" in done.err,
                      done.why())
            rtl = write(self.folder, "rtl.v", read(source).replace("module m(", "module rtl("))
            program = os.path.join(self.folder, "bench.vvp")
            run(["iverilog", "-g2005", "-o", program, write(self.folder, "bench.v", STATE_BENCH),
                 rtl, made])
            rows = run(["vvp", "-n", program]).out.split()
            self.note(f"the invariant of {name}", len(rows) == 8 and set(rows) == {"10", "01"},
                      str(rows))
            one = os.path.join(self.folder, "one")
            run([script("gates"), write(self.folder, "one.v", text.format(x="1")), "-o", one])
            done = bbeq(made, one, "--invariant", "invariant")
            self.note(f"what bbeq says of {name}", done.out.startswith(f"invariant {answer}\n")
                      and (done.status == 0) == (answer == "kept"), done.why())

    def test_refused(self):
        source = write(self.folder, "m.v", REGISTER)
        done = run([script("gates"), "--undef", "care", source])
        self.note("an undefined value that a register takes", is_told(done, "gates")
                  and "register q may take" in done.err
                  and "--undef invariant leaves out" in done.err, done.why())
        source = write(self.folder, "m.v", MODULE.format(BODIES["a default"]).replace(
            "^a", "b") .replace("1'bx", "1'b1"))
        done = run([script("gates"), "--undef", "care", source])
        self.note("an undriven net is refused as ever", done.status == 125
                  and "b is read and has no driver" in done.err, done.why())
        source = write(self.folder, "m.v", MODULE.format("always @* y = a[0];"))
        done = run([script("gates"), "--undef", "care", source])
        self.note("where nothing is undefined", done.status == 0 and "care" not in done.out
                  and "no care output" in done.err, done.why())
        done = run([script("gates"), "--undef", "care", "--words", source])
        self.note("--undef care --words", is_told(done, "gates") and done.status == 64, done.why())
