"""The tries of `gates --async`: what it writes is simulated beside its source. Where set and reset
change at the other edge of the clock alone, both give the same; where they come and go between two
edges, they need not."""
import os

from tests.tries import Tries, read, run, script, write

DESIGNS = {"reset":
           "always @(posedge clk or posedge rst) if (rst) q <= 4'd3; else if (en) q <= q + d;",
           "low": "always @(posedge clk or negedge rst) if (!rst) q <= 4'd9; else q <= q ^ d;",
           "parts": "always @(posedge clk or posedge rst) if (rst) q[3:1] <= 3'd0; else q[3:1] <= "
           "d[2:0];\n  always @(posedge clk) q[0] <= en;", "both": "always @(posedge clk or "
           "posedge rst or posedge en) if (rst) q <= 4'd0; else if (en) q <= 4'd15; else q <= d;",
           "named": "reg [7:4] held;\n  always @(posedge clk or posedge rst) if (rst) held <= "
           "4'd6; else held <= held + d;\n  always @* q = held;"}
SOURCE = """module m(input clk, input rst, input en, input [3:0] d, output reg [3:0] q);
  {body}
endmodule
"""
BENCH = """module bench;
  reg clk = 0, rst = 1, en = 0; reg [3:0] d = 0; wire [3:0] left, right; integer wrong = 0, cycle;
  source left_one(clk, rst, en, d, left);
  made right_one(clk, rst, en, d, right);
  initial begin
    #1 rst = 0; #1 rst = 1;
    for (cycle = 0; cycle < 200; cycle = cycle + 1) begin
      #4 clk = 1; #4 if (left !== right && cycle > 3) wrong = wrong + 1;
      clk = 0; #1 d = $random; en = $random; rst = cycle < 2 ? cycle : $random;
      #1 if (left !== right && cycle > 3) wrong = wrong + 1;
      {pulse}
    end
    $display("%0d", wrong);
  end
endmodule
"""
PULSE = ("if (cycle % 8 == 7) begin rst = ~rst; #1 rst = ~rst; #1 if (left !== right) wrong = "
         "wrong + 1; end")


def differences(folder, source, made, pulse):
    """How often the two differ, as the simulator counts it."""
    paths = [write(folder, name, text)
             for name, text in (("source.v", source.replace("module m(", "module source(")),
                                ("made.v", made.replace("module m(", "module made(")),
                                ("bench.v", BENCH.format(pulse=pulse)))]
    program = os.path.join(folder, "bench.vvp")
    built = run(["iverilog", "-g2005", "-s", "bench", "-o", program, *paths])
    return run(["vvp", "-n", program]) if built.status == 0 else built


class Async(Tries):
    part = "async"

    def test_async(self):
        for name, body in DESIGNS.items():
            source = SOURCE.format(body=body)
            path, made = write(self.folder, "m.v", source), os.path.join(self.folder, "m_gates.v")
            done = run([script("gates"), path])
            self.note(f"gates names --async for {name}",
                      done.status == 125 and "; --async keeps it" in done.err, done.why())
            done = run([script("gates"), "--async", path, "-o", made])
            self.note(f"gates --async takes {name}", done.status == 0 and ".stored" in read(made),
                      done.why())
            # A simulator keeps the reset's value where it ends while the set is active; gates do
            # not.
            if done.status or name == "both":
                continue
            done = differences(self.folder, source, read(made), "")
            self.note(f"gates --async: {name} simulates as its source", done.out.strip() == "0",
                      done.why())
        source = SOURCE.format(body=DESIGNS["reset"])
        run([script("gates"), "--async", write(self.folder, "m.v", source), "-o",
             os.path.join(self.folder, "m_gates.v")])
        done = differences(self.folder, source, read(os.path.join(self.folder, "m_gates.v")), PULSE)
        self.note("gates --async: a reset between two edges is not kept",
                  done.out.strip() not in ("", "0"), done.why())
