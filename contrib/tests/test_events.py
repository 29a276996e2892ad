"""A simulator as the judge of what a verdict says of runs: iverilog takes two designs through the
same events from the same states, with data that change between, and any clocks that rise or fall at
once, and compares outputs and states as long as the care output, where there is one, was 1."""
import os
from concurrent.futures import ThreadPoolExecutor

from bbeq_tools.developing.clocked import Clocked
from tests.tries import Tries, bbeq, run, write

DRAWN = int(os.environ.get("CHECK_EVENTS", "60"))
RUNS, EVENTS = 25, 200
BENCH = """module bench;
  integer turn, number, wrong, cared;
  reg a, b;
  reg [{last}:0] clocks;
  wire {wires};
  {spec}
  {other}
  initial begin
    wrong = 0; clocks = 0;
    for (turn = 0; turn < {runs}; turn = turn + 1) begin
      #1 {states} cared = 1;
      for (number = 0; number < {events}; number = number + 1) begin
        {{a, b}} = $random;
        #1 {care}
        if (cared && {outputs}) wrong = wrong + 1;
        clocks = clocks ^ $random;
        #1 if (cared && {kept}) wrong = wrong + 1;
      end
    end
    $display("%0d", wrong);
  end
endmodule
"""


def instance(pair, module, name, care=()):
    pins = [*(f".{clock}(clocks[{at}])" for at, clock in enumerate(pair.clocks)), ".a(a)", ".b(b)",
            *(f".{out}({name}_{out})" for out in (*pair.outputs, *care))]
    return f"{module} {name}({', '.join(pins)});"


def differ(names, spec, other):
    """Whether bits of the two differ, as an expression."""
    return "(" + " || ".join(f"{spec}{name} !== {other}{name}" for name in names) + ")"


def bench_of(pair, module):
    care = [pair.care] if pair.care else []
    return BENCH.format(
        last=len(pair.clocks) - 1, runs=RUNS, events=EVENTS,
        wires=", ".join([f"{name}_{out}" for name in ("spec", "other") for out in pair.outputs]
                        + [f"spec_{name}" for name in care]),
        spec=instance(pair, "s", "spec", care), other=instance(pair, module, "other"),
        states=" ".join(f"spec.{register} = $random; other.{register} = spec.{register};"
                        for register in pair.registers),
        care=" ".join(f"if (spec_{name} !== 1'b1) cared = 0;" for name in care),
        outputs=differ(pair.outputs, "spec_", "other_"),
        kept=differ(pair.registers, "spec.", "other."))


def differences(folder, pair, module, text):
    """How often the simulator sees a difference between the specification and this text."""
    program = os.path.join(folder, module)
    done = run(["iverilog", "-o", program, write(folder, f"{module}.v", "\n".join(
        [bench_of(pair, module), pair.specification, text]))])
    return done if done.status else run(["vvp", "-n", program])


def tried(folder, seed):
    """For the text that --fill writes, and for drawn contents: whether bbeq calls the two equal,
    and what the simulator saw."""
    pair, place = Clocked(seed), os.path.join(folder, str(seed))
    os.mkdir(place)
    care = ["--care", pair.care] if pair.care else []
    spec = write(place, "spec.v", pair.specification)
    filled = bbeq(spec, write(place, "impl.v", pair.implementation), "--fill", *care)
    whole = pair.with_contents()
    given = bbeq(spec, write(place, "whole.v", whole), *care)
    found = [(pair, f"drawn pair {seed}: drawn contents", given.status,
              differences(place, pair, "t", whole))]
    if filled.status == 0:
        text = filled.out.partition("\nfill\n")[2]
        found.append((pair, f"drawn pair {seed}: the filled text", 0,
                      differences(place, pair, "filled", text)))
    return found


class Events(Tries):
    part = "events"

    def test_events(self):
        with ThreadPoolExecutor(os.cpu_count()) as pool:
            found = [one for pair in pool.map(lambda seed: tried(self.folder, seed), range(DRAWN))
                     for one in pair]
        for _, name, status, done in found:
            self.note(name, done.status == 0 and status in (0, 1)
                      and (status == 1 or done.out == "0\n"), done.why())
        # A mistake need not show in drawn runs, and hides behind a care output that is 0.
        errors = [done.out != "0\n" for pair, _, status, done in found if status == 1
                  and not pair.care]
        self.note(f"{sum(errors)} of {len(errors)} errors show in the runs",
                  errors and sum(errors) >= 0.9 * len(errors))
        filled = sum("filled" in name for _, name, *_ in found)
        self.note(f"{filled} of {DRAWN} pairs are filled", filled >= DRAWN // 3)
