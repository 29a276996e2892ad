"""What `parts` writes, by other readers: yosys reads a drawn design and each of its parts, with
contents in the boxes, and iverilog compares them at drawn states and inputs, output by output and
register by register. Nothing here reads a text as `parts` and `evaluate` do."""
import os
import random
import re

from bbeq_tools.developing.drawn import drawn_apart
from tests.tries import Tries, read, run, script, write

DRAWN = int(os.environ.get("CHECK_SIMULATED", "10"))
BOX = re.compile(r"^(module \w+\(([^)]*)\); input ([^;]*); output ([^;]*);) endmodule$",
                 re.MULTILINE)
FLAT = """design -reset
read_verilog "{path}"
hierarchy -top {top}
proc
flatten
rename {top} {name}
write_verilog -noattr "{made}"
"""
CYCLES = 200
BENCH = """module bench;
  integer cycle, wrong = 0, known = 0;
  {declared}
  whole whole({connected});
  {parts}
  initial begin
    {cleared}
    for (cycle = 0; cycle < {cycles}; cycle = cycle + 1) begin
      {drawn}
      #1 {compared}
      {clock} #1 {compared}
    end
    $display("%0d %0d", wrong, known);
  end
endmodule
"""


def with_contents(text, seed):
    """The text with contents in each box: gates over all its inputs, the same for each text."""
    def filled(module):
        head, _, ins, outs = module.groups()
        draw = random.Random(f"{seed} {head}")
        kinds = ("and", "or", "xor", "nand", "nor", "xnor") if "," in ins else ("buf", "not")
        return head + "".join(f" {draw.choice(kinds)}({out}, {ins});"
                              for out in outs.split(", ")) + " endmodule"
    return BOX.sub(filled, text)


def names_in(text, word):
    """The nets that yosys or `parts` declares so, a line each: (range, name)."""
    return re.findall(rf"^  {word} (\[\d+:\d+\] )?(\\\S+ |\w+);$", text, re.MULTILINE)


def plain(name):
    return name.strip().removeprefix("\\")


def in_whole(name):
    """Where the whole has the bit of which the part has a net."""
    base, index = re.fullmatch(r"(.*?)(\[\d+\])?", plain(name)).groups()
    return f"whole.\\{base} {index or ''}"


def part_lines(number, text):
    """An instance of the part, with the inputs of the whole; what is compared; its registers."""
    pins = [f".{name}({in_whole(name)})" for _, name in names_in(text, "input")]
    lines = f"part{number} part{number}({', '.join(pins)});"
    states = [(f"part{number}.{name}", in_whole(name)) for _, name in names_in(text, "reg")]
    ends = [(f"part{number}.{name}", in_whole(name)) for _, name in names_in(text, "output")]
    return lines, ends + states, states


def bench_of(whole, parts):
    """The text that compares the whole with the parts."""
    inputs = names_in(whole, "input")
    lines, compared, states = [], [], []
    for number, text in enumerate(parts):
        line, both, own = part_lines(number, text)
        lines.append(line)
        compared += both
        states += own
    clocks = [name for _, name in inputs if plain(name) == "clk"]
    return BENCH.format(
        declared=" ".join(f"reg {shape}{name};" for shape, name in inputs),
        connected=", ".join(f".{name}({name})" for _, name in inputs), parts="\n  ".join(lines),
        cleared=" ".join(f"{name} = 0;" for _, name in inputs), cycles=CYCLES,
        drawn=" ".join([*(f"{name} = $random;" for _, name in inputs if name not in clocks),
                        *(f"{there} = $random; {here} = {there};" for here, there in states)]),
        compared=" ".join(f"if ({here} !== {there}) wrong = wrong + 1; "
                          f"if (^{here} !== 1'bx) known = known + 1;" for here, there in compared),
        clock=" ".join(f"{name} = ~{name};" for name in clocks))


def simulated(folder, top, paths):
    """How many values differ between a design and its parts, and how many are known."""
    names = ["whole", *(f"part{number}" for number in range(len(paths) - 1))]
    made = [os.path.join(folder, f"{name}.v") for name in names]
    steps = "".join(FLAT.format(path=path, top=top, name=name, made=text)
                    for path, name, text in zip(paths, names, made))
    done = run(["yosys", "-q", "-s", write(folder, "flat.ys", steps)])
    if done.status:
        return done
    # A part has a net a line as `parts` wrote it; yosys' text of it tells no registers apart.
    texts = [read(made[0]), *map(read, paths[1:])]
    bench, program = os.path.join(folder, "bench.v"), os.path.join(folder, "bench")
    write(folder, "bench.v", bench_of(texts[0], texts[1:]))
    done = run(["iverilog", "-o", program, bench, *made])
    return done if done.status else run(["vvp", "-n", program])


class Simulated(Tries):
    part = "simulated"

    def test_parts(self):
        tried = 0
        for seed in range(DRAWN):
            folder = os.path.join(self.folder, str(seed))
            os.mkdir(folder)
            wholes = [write(folder, name, with_contents(text, seed))
                      for name, text in zip(("spec", "impl"), drawn_apart(seed))]
            made = os.path.join(folder, "parts")
            texts = [write(folder, f"{name}.v", text)
                     for name, text in zip(("spec", "impl"), drawn_apart(seed))]
            done = run([script("parts"), *texts, "-o", made])
            self.note(f"drawn pair {seed}: parts", done.status == 0, done.why())
            for whole, side, top in zip(wholes, ("spec.v", "impl.v"), "st"):
                found = [os.path.join(made, number, side)
                         for number in sorted(os.listdir(made)) if number.isdecimal()]
                for path in found:
                    write(os.path.dirname(path), side, with_contents(read(path), seed))
                if run(["yosys", "-q", "-p", f"read_verilog {whole}"]).status:
                    continue  # A form that bbeq takes, and yosys does not.
                tried += 1
                done = simulated(folder, top, [whole, *found])
                wrong, known = ([int(word) for word in done.out.split()] + [1, 0])[:2]
                self.note(f"drawn pair {seed}: {len(found)} parts of {side}, {known} values alike",
                          done.status == 0 and not wrong and known, done.why())
        self.note(f"{tried} of {2 * DRAWN} drawn designs are read by yosys", tried >= DRAWN)
