"""Pairs from RTL that differ in states that never come and in no others. As all states are compared
they are an error, and with `--invariant` repairable; the filled implementation is then simulated
beside the specification from a reset on. A mistake in a state that comes stays an error, and so
does what an invariant leaves open."""
import os
import re
import time

from tests.tries import DESIGNS, Tries, bbeq, read, run, script, write

FOLDER = os.path.join(DESIGNS, "unreached")
CYCLES = 10000


class Pair:
    """What a folder has: the invariant, the other ports with their widths, and whether a state
    comes. `mistake` is a change of the implementation, and `weak` one of the invariant with the
    first and the last line of the report that follows."""

    def __init__(self, invariant, inputs, outputs, comes, mistake, weak):
        self.invariant, self.inputs, self.outputs = invariant, inputs, outputs
        self.comes, self.mistake, self.weak = comes, mistake, weak


PAIRS = {
    "states": Pair("one_hot", {"request": 1, "write": 1, "refresh": 1, "done": 1},
                   {"command": 3, "busy": 1, "take": 1, "valid": 1},
                   lambda word: bin(word("state")).count("1") == 1,
                   ("next[9]  = state[8] |", "next[9]  ="),
                   ("state != 0 && ", "", "kept", "error")),
    "queue": Pair("agree", {"push": 1, "pop": 1},
                  {"read_at": 3, "write_at": 3, "write_enable": 1, "full": 1, "empty": 1,
                   "nearly_full": 1},
                  lambda word: (word("wr") - word("rd") - word("count")) % 8 == 0
                  and word("count") <= 8,
                  ("(pushed || full)", "pushed"),
                  ("count[2:0] == between && ", "", "kept", "error")),
    "divider": Pair("below", {"enable": 1}, {"tick": 1, "half": 1},
                    lambda word: word("count") < 1000,
                    ("count >= LAST", "count > LAST"),
                    ("below = count <= LAST", "below = count < LAST", "broken", "open"))}
# Shows how many times the outputs were compared, differed and were not known, how often the
# invariant was not 1, and which bits of the outputs were 0 and which 1 at some time.
BENCH = """module bench;
  reg clk = 0, rst = 1{inputs};
  wire {invariant}; wire [{width}:0] one, two;
  reg [{width}:0] zeros = 0, ones = 0;
  integer cycle, seed = 1, compared = 0, wrong = 0, unknown = 0, broken = 0;
  spec spec(.clk(clk), .rst(rst){pins}, .{invariant}({invariant}){first});
  impl impl(.clk(clk), .rst(rst){pins}{second});
  task compare; begin
    compared = compared + 1; zeros = zeros | ~one; ones = ones | one;
    if (one !== two) wrong = wrong + 1;
    if (^one === 1'bx) unknown = unknown + 1;
    if ({invariant} !== 1'b1) broken = broken + 1;
  end endtask
  initial begin
    for (cycle = 0; cycle < {cycles}; cycle = cycle + 1) begin
      #5 clk = 0;
      {drawn}rst = cycle < 1 || $random(seed) % 2048 == 0;
      #5 if (cycle > 0) compare;
      clk = 1;
      #1 compare;
    end
    $display("%0d %0d %0d %0d %b %b", compared, wrong, unknown, broken, zeros, ones);
  end
endmodule
"""


def pins_of(outputs, word):
    """The pins of the outputs, each at its place in a word."""
    text, last = "", -1
    for port, width in outputs.items():
        text += f", .{port}({word}[{last + width}:{last + 1}])"
        last += width
    return text


def bench(pair):
    return BENCH.format(invariant=pair.invariant, width=sum(pair.outputs.values()) - 1,
                        inputs="".join(f", {port} = 0" for port in pair.inputs), cycles=CYCLES,
                        pins="".join(f", .{port}({port})" for port in pair.inputs),
                        first=pins_of(pair.outputs, "one"), second=pins_of(pair.outputs, "two"),
                        drawn="".join(f"{port} = $random(seed); " for port in pair.inputs))


def simulated(folder, pair, rtl, filled):
    """The RTL of the specification, which yosys has not read, beside a filled implementation."""
    program = os.path.join(folder, "bench.vvp")
    built = run(["iverilog", "-g2012", "-DINVARIANT", "-s", "bench", "-o", program,
                 write(folder, "bench.v", bench(pair)), rtl, filled])
    return built if built.status else run(["vvp", "-n", program])


def state_in(report):
    """The words of registers at the vector that a report shows, by name."""
    shown = re.search("^input .*", report, re.MULTILINE).group()
    return lambda name: sum(1 << int(place) for place in
                            re.findall(rf" {name}\[(\d+)\]=1", shown))


def ends(done):
    """The first line and the last."""
    lines = done.out.splitlines() or [""]
    return lines[0], lines[-1]


class Unreached(Tries):
    part = "unreached"

    def test_unreached(self):
        for name, pair in PAIRS.items():
            rtl = os.path.join(FOLDER, name, "spec.sv")
            bare = self.gates("bare.v", rtl)
            spec = self.gates("spec.v", rtl, "--define", "INVARIANT")
            impl = self.gates("impl.v", os.path.join(FOLDER, name, "impl.sv"))
            done = bbeq(bare, impl)
            self.note(f"{name}: an error as all states are compared, at one that never comes",
                      ends(done)[1] == "verdict error" and not pair.comes(state_in(done.out)),
                      done.why())
            start = time.monotonic()
            done = bbeq(spec, impl, "--invariant", pair.invariant)
            self.note(f"{name}: repairable with the invariant, after "
                      f"{time.monotonic() - start:.1f} s",
                      ends(done) == ("invariant kept", "verdict repairable"), done.why())
            self.try_filled(name, pair, rtl, (spec, impl), done.out)
            self.try_wrong(name, pair, spec, impl)

    def gates(self, name, source, *words):
        made = os.path.join(self.folder, name)
        done = run([script("gates"), *words, source, "-o", made])
        if done.status or done.err:
            self.note(f"gates of {source}", False, done.why())
        return made

    def try_filled(self, name, pair, rtl, texts, report):
        """Simulates what `fill` makes of the tables, and what `bbeq --fill` prints."""
        flat = bbeq(*texts, "--invariant", pair.invariant, "--fill").out
        for what, text, words in (("fill", report, [texts[1]]),
                                  ("bbeq --fill", flat, ["--flat", "--ports", texts[1]])):
            filled = os.path.join(self.folder, "filled.v")
            made = run([script("fill"), write(self.folder, "report", text), *words, "-o", filled])
            done = simulated(self.folder, pair, rtl, filled) if made.status == 0 else made
            every = "1" * sum(pair.outputs.values())
            self.note(f"{name}: the netlist of {what} simulates as the RTL in {CYCLES} cycles",
                      done.out.split() == [str(2 * CYCLES - 1), "0", "0", "0", every, every],
                      done.why())

    def try_wrong(self, name, pair, spec, impl):
        """A mistake in a state that comes, and an invariant that says too little or is none."""
        wrong = self.gates("wrong.v", self.changed(name, "impl.sv", *pair.mistake))
        done = bbeq(spec, wrong, "--invariant", pair.invariant)
        self.note(f"{name}: a mistake in a state that comes",
                  ends(done) == ("invariant kept", "verdict error")
                  and pair.comes(state_in(done.out)), done.why())
        old, new, first, last = pair.weak
        weak = self.gates("weak.v", self.changed(name, "spec.sv", old, new), "--define",
                          "INVARIANT")
        done = bbeq(weak, impl, "--invariant", pair.invariant)
        self.note(f"{name}: another invariant is {first}, and the verdict {last}",
                  ends(done) == (f"invariant {first}", f"verdict {last}"), done.why())

    def changed(self, name, source, old, new):
        text = read(os.path.join(FOLDER, name, source))
        self.note(f"{name}: what is changed is in {source}", text.count(old) == 1)
        return write(self.folder, f"changed_{source}", text.replace(old, new))
