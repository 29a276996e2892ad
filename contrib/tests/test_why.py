"""The tries of `why`: no contents of the boxes are right at the vectors that it shows, and some are
where one of these is left out, or where a box has the pin that is named."""
import os
import re
from itertools import product

from bbeq_tools.developing.drawn import drawn_pair
from bbeq_tools.reference.truths import by_rows
from bbeq_tools.report.buses import hexadecimal, shown
from bbeq_tools.report.reports import vectors
from bbeq_tools.verilog.bits import Bit, same
from bbeq_tools.verilog.language import bit_text, read_modules, top_of
from bbeq_tools.verilog.values import Design
from bbeq_tools.verilog.world import World
from tests.tries import Tries, bbeq, example, is_told, read, run, script, write

DRAWN = int(os.environ.get("CHECK_WHY", "20"))  # Drawn pairs whose error is explained.
MOST_BITS = 13  # Of contents that are tried.
WHOLE = """module m(clk, a, b, c, y, z, w);
  input clk, a, b, c; output [1:0] y; output z, w; reg [1:0] r; reg s; wire t;
  {body}
  and(y[1], a, c); xor(z, b, c); xor(w, r[0], s);
  always @(posedge clk) r <= {{t, b}};
  always @(posedge clk) s <= c;
endmodule
"""
RIGHT = "and(t, a, b); buf(y[0], t);"
# No contents of the box are both: the one output needs it to be an and, and the next state an or.
TWO = (WHOLE.format(body="bx u(a, b, t); buf(y[0], t);")
       + "module bx(i, j, o); input i, j; output o; endmodule\n")
OTHER_WAY = WHOLE.format(body="wire v; and(t, a, b); or(v, a, b); buf(y[0], v);")
# The same where c is 1.
CARED_WAY = OTHER_WAY.replace("z, w)", "z, w, k)").replace("z, w;", "z, w, k; buf(k, c);")
# Here the box lacks the pin b.
SHORT = (WHOLE.format(body="bx u(a, t); buf(y[0], t);")
         + "module bx(i, o); input i; output o; endmodule\n")
# The second box reads what the first gives, and lacks c.
CHAIN = """module m(a, b, c, y); input a, b, c; output y; wire t;
  and(t, a, b); xor(y, t, c);
endmodule
"""
CHAIN_BOXES = """module m(a, b, c, y); input a, b, c; output y; wire t;
  bx u(a, b, t); by v(t, y);
endmodule
module bx(i, j, o); input i, j; output o; endmodule
module by(i, o); input i; output o; endmodule
"""
# The box lacks b. At two vectors that differ in b, p and q, b alone tells them apart where p and q
# are the same, but p can be made so only after q.
NEAR = """module m(a, p, s, q, b, y); input a, p, s, q, b; output y;
  assign y = b | ~p & q | a & s;
endmodule
"""
NEAR_BOX = """module m(a, p, s, q, b, y); input a, p, s, q, b; output y; bx u(a, y); endmodule
module bx(i, o); input i; output o; endmodule
"""
# Both boxes have to give a, of which neither has a pin.
BOTH = "module m(a, y); input a; output y; assign y = 1'b1; endmodule\n"
BOTH_BOXES = """module m(a, y); input a; output y; wire s, t, p, q;
  bx u(1'b0, s); bx v(1'b0, t); xnor(p, s, a); xnor(q, t, a); and(y, p, q);
endmodule
module bx(i, o); input i; output o; endmodule
"""


def design_of(path):
    _, modules = read_modules(path)
    return Design(modules, top_of(path, modules, None))


def all_contents(boxes, shared=False):
    """All contents of the boxes, a list of rows for each; those of one module may be the same."""
    keys = {box.path: box.module if shared else box.path for box in boxes}
    kinds = {keys[box.path]: box for box in boxes}
    places = [(key, len(box.outs)) for key, box in kinds.items() for _ in range(2 ** len(box.ins))]
    for bits in product(*[list(product((0, 1), repeat=count)) for _, count in places]):
        found = {key: [] for key in kinds}
        for (key, _), row in zip(places, bits):
            found[key].append(row)
        yield {path: found[key] for path, key in keys.items()}


def with_pins(design, pins):
    """The boxes by their paths, with these inputs and registers as pins besides."""
    keys = {bit_text(*key[1:]): key for key in design.drivers if not key[0]}
    return {box.path: box._replace(ins=[*box.ins, *(keys[text] for path, text in pins
                                                    if path == box.path)])
            for box in design.boxes}


def agreeing(designs, kept, found, pins=(), shared=False):
    """For all contents of the boxes, at which of the vectors all of these outputs are right."""
    every, boxes = (1 << len(found)) - 1, with_pins(designs[1], pins)
    ones = {name: sum(1 << at for at, bits in enumerate(found) if bits[name[1]] == "1")
            for name in designs[0].inputs}
    given = {name: Bit(one, every & ~one) for name, one in ones.items()}
    world = World(designs[0], given, None)
    wanted = {name: make(world) for name, make in designs[0].outputs if name in kept}
    for contents in all_contents(list(boxes.values()), shared):
        give = by_rows(contents)
        world, right = World(designs[1], given,
                             lambda world, box, give=give: give(world, boxes[box.path])), every
        for name, make in designs[1].outputs:
            right &= same(wanted[name], make(world)).one if name in kept else every
        yield right


def is_remedy(line, designs, kept, found):
    """Whether with the pins of a line some contents are right; where these have too many bits to
    try, it is believed."""
    if line.startswith("no pin "):
        number = re.search(r"at vector (\d+) ", line)
        return number is not None and not any(agreeing(designs, kept, [found[int(number[1]) - 1]]))
    pins = [(path, part.split(" ")[0].rstrip(",:"))
            for path, parts in re.findall(r"(?:give|, and) (\S+) (a pin on .*?)"
                                          r"(?=, and \S+ a pin|: then)", line)
            for part in parts.split("a pin on ")[1:]]
    bits = sum(len(box.outs) << len(box.ins) for box in with_pins(designs[1], pins).values())
    every = (1 << len(found)) - 1
    return bool(pins) and (bits > MOST_BITS or every in agreeing(designs, kept, found, pins))


class Why(Tries):
    part = "why"
    needs = ()

    def explained(self, name, spec, implementation, *words):
        """The lines that `why` prints of an error, where they are true by all contents."""
        left, right = write(self.folder, "s.v", spec), write(self.folder, "i.v", implementation)
        report = write(self.folder, "report", bbeq(left, right, *words).out)
        shows = os.path.join(self.folder, "vectors")
        done = run([script("why"), report, left, right, "-o", shows, "--", *words])
        lines = done.out.splitlines()
        kept = {tuple(line.split(" ", 1)) for line in lines
                if line.startswith(("output ", "next "))}
        report = read(shows).splitlines() if done.status == 0 else []
        found = [bits for _, _, bits in vectors(report)]
        designs = [design_of(path) for path in (left, right)]
        masks = set(agreeing(designs, kept, found)) if found else set()
        every = (1 << len(found)) - 1
        is_least = all(any(mask | 1 << at == every for mask in masks) for at in range(len(found)))
        self.note(f"why: {name}", bool(found) and every not in masks and is_least, done.why())
        given = [line for line in lines if line.startswith(("give ", "no pin "))]
        self.note(f"why: {name}: it names pins, or why there are none",
                  bool(given) and all(is_remedy(line, designs, kept, found) for line in given),
                  done.why())
        return lines

    def test_why(self):
        lines = self.explained("two that cannot be right together", OTHER_WAY, TWO)
        self.note("it names the outputs and what the box sees", lines[:3]
                  == ["next r[1]", "output y[0]", "boxes u"] and "  u sees i=0 j=1" in lines
                  or "  u sees i=1 j=0" in lines, lines)
        lines = self.explained("a pin that a box lacks", WHOLE.format(body=RIGHT), SHORT)
        self.note("it names the pin", lines[-1].startswith("give u a pin on b: then"), lines)
        self.note("and what the box must give", {"  must give o=1, for output y[0]",
                                                 "  must give o=0, for output y[0]"}
                  <= set(lines) or "  must give o=1, for next r[1]" in lines, lines)

    def test_chain(self):
        """Boxes one behind the other: a pin that the second lacks, and pins that both lack."""
        lines = self.explained("a box behind another", CHAIN, CHAIN_BOXES)
        self.note("it names the pin of the second",
                  any(line.startswith("give v a pin on c") for line in lines), lines)
        lines = self.explained("two boxes that lack a pin each", BOTH, BOTH_BOXES)
        self.note("it names both pins",
                  lines[-1].startswith("give u a pin on a, and v a pin on a: then"), lines)

    def test_alike(self):
        """Vectors that are given are made alike, so that no pin is named by accident."""
        files = [write(self.folder, "s.v", NEAR), write(self.folder, "i.v", NEAR_BOX)]
        report = write(self.folder, "report", "input a=0 p=0 s=0 q=0 b=1\ninput a=0 p=1 s=1 q=1 "
                       "b=0\nverdict error\n")
        done = run([script("why"), report, *files])
        self.note("it names no pin by accident", done.out.splitlines()[-1]
                  == "give u a pin on b: then some contents are right at all of these vectors",
                  done.why())

    def test_words(self):
        left, right = write(self.folder, "s.v", CARED_WAY), write(self.folder, "i.v", TWO)
        report = write(self.folder, "report", bbeq(left, right, "--care", "k").out)
        done = run([script("why"), "--care", "k", report, left, right])
        self.note("why --care", done.out.startswith("next r[1]\noutput y[0]\nboxes u\nvector 1: ")
                  and " c=1 " in done.out, done.why())
        done = run([script("why"), "--runs", report, left, right, "--care", "k", "--", "--to",
                    "expand"])
        self.note("why --runs", " vectors: verdict error; bbeq " in done.out, done.why())
        spec, implementation = example("carry", "spec.v"), example("carry", "impl.v")
        done = run([script("why"), write(self.folder, "report", bbeq(spec, implementation).out),
                    spec, implementation])
        self.note("why of a report without an error", is_told(done, "why"), done.why())
        report = write(self.folder, "report", "rung input error\nverdict error\n")
        done = run([script("why"), report, spec, implementation])
        self.note("why of a report of other texts", is_told(done, "why"), done.why())

    def test_waves(self):
        """The vectors side by side."""
        spec, implementation = example("lanes", "spec.v"), example("lanes", "impl.v")
        report = write(self.folder, "report", bbeq(spec, implementation, "--proof").out)
        shows = os.path.join(self.folder, "vectors")
        done = run([script("why"), report, spec, implementation, "-o", shows])
        self.note("why of a report with its proof", "vector 2: " in done.out, done.why())
        words = [spec, implementation, "--vcd", os.path.join(self.folder, "w.vcd")]
        done = run([script("wave"), shows, *words])
        self.note("wave of two vectors", "spec  impl  spec  impl" in done.out
                  and "from time 30 on" in done.out, done.why())
        self.note("nor sends its reader back to why", "; `why` shows which" not in done.out)
        vector = next(line for line in read(shows).splitlines() if line.startswith("input "))
        check = write(self.folder, "check", f"rung output error\n{vector}\nverdict error\n")
        done = run([script("wave"), check, *words])
        self.note("wave names why where no bit is wrong", "; `why` shows which" in done.out,
                  done.why())
        done = run([script("wave"), shows, *words, "--wrong-only", "--vector", "2"])
        self.note("wave --wrong-only", "output" not in done.out and "spec" not in done.out
                  and "No bit is wrong by itself; no contents" in done.out and done.status == 0,
                  done.why())
        done = run([script("wave"), write(self.folder, "none", "rung input error\nverdict error\n"),
                    *words])
        self.note("wave names why", is_told(done, "wave") and "`why`" in done.err, done.why())

    def test_drawn(self):
        seed = count = 0
        while count < DRAWN:
            seed += 1
            spec, implementation = drawn_pair(seed)[:2]
            if " ff " in spec + implementation:  # Its registers are not in the top.
                continue
            done = bbeq(write(self.folder, "s.v", spec), write(self.folder, "i.v", implementation))
            if done.status == 1 and "\ninput " not in done.out:
                count += 1
                self.explained(f"drawn pair {seed}", spec, implementation)

    def test_buses(self):
        self.note("buses", shown({"a[1]": "1", "b": "0", "a[0]": "0", "a[3]": "1"})
                  == "a[3]=1 a[1:0]=2 b=0")
        self.note("unknown digits", [hexadecimal(text) for text in ("xxxxx", "1x", "11111")]
                  == ["xx", "b1x", "1f"])
