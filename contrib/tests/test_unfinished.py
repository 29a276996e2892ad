"""Designs in the usual style with an empty module, each from RTL to a netlist that is filled: it,
and the RTL with the filled modules in it, give the same in 1,000 cycles as the design whose modules
were written by hand, in one testbench."""
import os
import re
import time

from tests.tries import DESIGNS, Tries, bbeq, read, run, script, write

FOLDER = os.path.join(DESIGNS, "unfinished")
CYCLES = 1000
# The words of gates, those of the program, the reset with its active value, and the other ports
# with their widths.
TURNS = {"alu.sv": (["--async"], [], "rst_n=0", {"op": 3, "a": 8, "b": 8},
                    {"result": 8, "zero": 1, "carry": 1}),
         "transmitter.sv": ([], [], "rst=1", {"send": 1, "data": 8}, {"line": 1, "busy": 1}),
         "queue.sv": ([], [], "rst=1", {"push": 1, "pop": 1, "in": 4},
                      {"out": 4, "full": 1, "empty": 1}),
         "crc.v": (["--async"], [], "rst=1", {"valid": 1, "data": 8}, {"crc": 8, "match": 1}),
         "pipeline.v": ([], [], "rst=1", {"code": 3}, {"acc": 2, "zero": 1})}
BENCH = """module bench;
  reg clk = 0, {reset} = {active}; {inputs}{outputs}
  integer cycle, seed = 1;
  {top} dut(.clk(clk), .{reset}({reset}){pins});
  initial begin
    for (cycle = 0; cycle < {cycles}; cycle = cycle + 1) begin
      #5 clk = 0;
      {drawn}{reset} = cycle < 3 || $random(seed) % 64 == 0 ? {active} : {idle};
      #5 if (cycle > 3) $display("%b{formats}", {reset}{shown});
      clk = 1;
      #1 if (cycle > 3) $display("%b{formats}", {reset}{shown});
    end
  end
endmodule
"""


def bench(top, reset, inputs, outputs):
    name, active = reset.split("=")

    def nets(kind, ports):
        return "".join(f"{kind} [{width - 1}:0] {port}; " for port, width in ports.items())
    both = [*inputs, *outputs]
    return BENCH.format(top=top, reset=name, active=active, idle=1 - int(active), cycles=CYCLES,
                        inputs=nets("reg", inputs), outputs=nets("wire", outputs),
                        pins="".join(f", .{port}({port})" for port in both),
                        drawn="".join(f"{port} = $random(seed); " for port in inputs), formats=" %b"
                        * len(outputs), shown="".join(f", {port}" for port in outputs))


def simulated(folder, testbench, sources):
    program = os.path.join(folder, "bench.vvp")
    built = run(["iverilog", "-g2012", "-s", "bench", "-o", program, testbench, *sources])
    return run(["vvp", "-n", program]) if built.status == 0 else built


def turn(folder, source, words, asked):
    """From RTL to what fills the box: the commands that were run, and the files that they wrote."""
    name, ending = source.split(".")
    design, part, hole = (os.path.join(FOLDER, f"{name}{end}.{ending}")
                          for end in ("", "_part", "_hole"))
    spec, implementation, filled, modules = (os.path.join(folder, end)
                                             for end in ("spec.v", "impl.v", "filled.v",
                                                         "modules.v"))
    steps = [run([script("gates"), *words, design, source, "-o", made])
             for source, made in ((part, spec), (hole, implementation))]
    steps.append(bbeq(spec, implementation, *asked))
    report = write(folder, "report", steps[2].out)
    steps.append(run([script("fill"), "--style", "case", report, implementation, "-o",
                      filled]))
    only = ["--only", "--style", "casez", "--rtl", hole, "--spec", spec]
    steps.append(run([script("fill"), *only, report, implementation, "-o", modules]))
    return steps, [design, part], [filled], [design, modules]


def lines_of_rows(path):
    return sum(1 for line in read(path).splitlines() if re.match(r" +\d+'b[01?]+[:,]", line))


class Unfinished(Tries):
    part = "unfinished"

    def test_unfinished(self):
        for source, (words, asked, reset, inputs, outputs) in TURNS.items():
            start = time.monotonic()
            steps, whole, filled, rtl = turn(self.folder, source, words, asked)
            told = " / ".join(step.err.strip() for step in steps if step.err) or "no message"
            self.note(f"{source}: from RTL to a filled netlist in {time.monotonic() - start:.1f} "
                      f"s; {told}", all(step.status == 0 for step in steps),
                      " ".join(step.why() for step in steps))
            top = re.search(r"^module (\w+)", read(whole[0]), re.MULTILINE).group(1)
            testbench = write(self.folder, "bench.v", bench(top, reset, inputs, outputs))
            own = simulated(self.folder, testbench, whole)
            for what, sources in (("the filled netlist", filled),
                                  ("the RTL with the filled modules", rtl)):
                done = simulated(self.folder, testbench, sources)
                right = (done.out == own.out and len(own.out.splitlines()) == 2 * (CYCLES - 4)
                         and "x" not in own.out)
                self.note(f"{source}: {what} simulates as the whole in {CYCLES} cycles",
                          done.status == 0 and right, done.why())
            rows, joined = lines_of_rows(filled[0]), lines_of_rows(rtl[1])
            # Rows that all give something else stay as they are.
            outputs = set(re.findall(r"= (\d+'b[01]+);", read(filled[0])))
            self.note(f"{source}: {joined} lines in place of {rows} rows",
                      joined < rows or joined == rows == len(outputs))
