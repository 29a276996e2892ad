"""The tries of `fill`, `wave`, `order`, `drat`, `lrat` and `refuse`."""
import os
import re

from bbeq_tools.report.buses import shown
from bbeq_tools.report.filler import STYLES
from bbeq_tools.report.reports import vectors
from tests.tries import (BBEQ, DESIGNS, SMALL_PROOF, Tries, bare_path, bbeq, designs_in, example,
                         is_told, read, run, script, write)

# fill

FILLED = """module t(a, b, y1, y2, y3); input a, b; output y1, y2, y3;
  k u1(a, y1), u2(b, y2), u3(b, y3);
endmodule
module k(a, y); input a; output y; wire w; bx v(a, w), v2(w, y); endmodule
module bx(i, o); input i; output o; endmodule
"""
FILLED_SPEC = ("module t(a, b, y1, y2, y3); input a, b; output y1, y2, y3; buf(y1, a); not(y2, b); "
               "buf(y3, b); endmodule\n")
FILLED_REPORT = "rung expand repair\n" + "".join(
    f"table {path} o {'10' if path == 'u2.v' else '01'}\n"
    for path in ("u1.v", "u1.v2", "u2.v", "u2.v2", "u3.v", "u3.v2")) + "verdict repairable\n"


# One content for all instances of the module, in each of which it stands twice, one behind the
# other.
SHARED_SPEC = FILLED_SPEC.replace("not(", "buf(")
SHARED_REPORT = "rung expand repair\ntable bx o 10\nverdict repairable\n"

# Two modules, each of which has the name of the other's instance.
CROSSED = """module t(a, b, y1, y2); input a, b; output y1, y2; p q(a, y1); q p(b, y2); endmodule
module p(i, o); input i; output o; endmodule
module q(i, o); input i; output o; endmodule
"""
CROSSED_REPORT = "rung expand repair\ntable p o 01\ntable q o 10\nverdict repairable\n"

# Rows with equal outputs: all whose first pin is 1, and two others.
JOINED = ("module t(a, y); input [2:0] a; output [1:0] y; bx u(a, y); endmodule\nmodule bx(i, o); "
          "input [2:0] i; output [1:0] o; endmodule\n")
JOINED_REPORT = ("rung input repair\ntable u o[1] 01010000\ntable u o[0] 00001111\n"
                 "verdict repairable\n")

# Names that have to be escaped, and ranges in both directions.
ESCAPED = r"""module \top.x (\a[0] , b, \y+z );
  input \a[0] ; input [0:2] b; output [1:0] \y+z ;
  \bo-x \u.1 (.\p[0] (\a[0] ), .q(b), .\r$ (\y+z ));
endmodule
(* blackbox *)
module \bo-x (\p[0] , q, \r$ );
  input \p[0] ; input [0:2] q; output [1:0] \r$ ;
endmodule
"""
ESCAPED_SPEC = r"""module s(\a[0] , b, \y+z ); input \a[0] ; input [0:2] b; output [1:0] \y+z ;
  assign \y+z = {\a[0] , ~b[2]};
endmodule
"""
ESCAPED_REPORT = """rung input repair
table u.1 r$[1] 0000000011111111
table u.1 r$[0] 1010101010101010
verdict repairable
"""


def repaired(report, implementation, spec, folder, *words):
    """The filled implementation agrees with the specification: read by the program, by way of gates
    where that is due."""
    filled = os.path.join(folder, "filled.v")
    done = run([script("fill"), *words, report, implementation, "-o", filled])
    if done.status:
        return False, done
    done = run(["iverilog", "-o", os.devnull, filled])
    if done.status:
        return False, done
    if "assign" not in words:
        done = run([script("gates"), filled, "-o", filled])
        if done.status:
            return False, done
    done = run([BBEQ, spec, filled])
    return done.status == 0, done


def repairs(folder):
    """Pairs with a repair, as (name, report, implementation, specification)."""
    report = write(folder, "several", FILLED_REPORT)
    yield ("several contents of one module", report, write(folder, "k.v", FILLED),
           write(folder, "ks.v", FILLED_SPEC))
    report = write(folder, "escaped", ESCAPED_REPORT)
    yield "escaped names", report, write(folder, "e.v", ESCAPED), write(folder, "es.v",
                                                                        ESCAPED_SPEC)
    for name in ("carry", "counter", "packet"):
        done = bbeq(example(name, "spec.v"), example(name, "impl.v"))
        yield name, write(folder, name, done.out), example(name, "impl.v"), example(name, "spec.v")


class Fill(Tries):
    part = "fill"

    def test_fill(self):
        for name, report, implementation, spec in list(repairs(self.folder)):
            for style in STYLES:
                right, done = repaired(report, implementation, spec, self.folder, "--style", style)
                self.note(f"fill --style {style}: {name}", right, done.why())
        report, spec = write(self.folder, "shared", SHARED_REPORT), write(self.folder, "ss.v",
                                                                          SHARED_SPEC)
        right, done = repaired(report, write(self.folder, "k.v", FILLED), spec, self.folder,
                               "--style", "assign", "--shared")
        once = read(os.path.join(self.folder, "filled.v")).count("module bx")
        self.note("fill --shared fills the module once", right and once == 1, done.why())
        other = run([script("fill"), report, os.path.join(self.folder, "k.v")])
        self.note("fill tells a report of modules from one of boxes",
                  is_told(other, "fill") and "--shared" in other.err, other.why())
        report, crossed = write(self.folder, "crossed", CROSSED_REPORT), write(self.folder, "c.v",
                                                                               CROSSED)
        done = [run([script("fill"), "--style", "assign", "--only", *words, report, crossed])
                for words in ([], ["--boxes"], ["--shared"])]
        self.note("fill asks whose the tables are where both would fit", is_told(done[0], "fill")
                  and "--boxes or --shared" in done[0].err and [one.status for one in done[1:]]
                  == [0, 0] and done[1].out != done[2].out, done[0].why())
        done = run([script("fill"), "--style", "casez", "--only",
                    write(self.folder, "joined", JOINED_REPORT), write(self.folder, "j.v", JOINED)])
        self.note("fill --style casez joins rows", done.status == 0
                  and "3'b0?1: contents[1] = 1'b1;" in done.out
                  and "3'b1??: contents[0] = 1'b1;" in done.out, done.why())
        rtl = write(self.folder, "rtl.v", "module bx #(parameter W = 3 /* pins */)(input [W-1:0] "
                    "i, output [1:0] o); endmodule\n")
        done = run([script("fill"), "--only", "--rtl", rtl, os.path.join(self.folder, "joined"),
                    os.path.join(self.folder, "j.v")])
        self.note("fill --rtl keeps parameters", done.status == 0
                  and "module bx #(parameter W = 3) (i, o);" in done.out, done.why())
        several = write(self.folder, "values.v",
                        JOINED.replace("bx u(a, y);", "bx u(a, y); bx_2 v(a[0], );")
                        + "module bx_2(i, o); input i; output o; endmodule\n")
        done = run([script("fill"), "--only", "--rtl", rtl, os.path.join(self.folder, "joined"),
                    several])
        self.note("fill --rtl refuses several values of parameters",
                  is_told(done, "fill") and "several values" in done.err, done.why())
        done = run([script("fill"), "--only", os.path.join(self.folder, "several"),
                    os.path.join(self.folder, "k.v")])
        self.note("fill --only tells that one module got several contents",
                  done.status == 0 and "fill: warning: instances of bx" in done.err
                  and len(done.err.splitlines()) == 1, done.why())
        other = run([script("fill"), os.path.join(self.folder, "several"),
                     example("carry", "impl.v")])
        self.note("fill refuses the report of another implementation", is_told(other, "fill"),
                  other.why())


# wave

class Wave(Tries):
    part = "wave"

    def test_wave(self):
        for name, wrong in (("adder", True), ("alu", True), ("nor", True), ("buffer", True)):
            spec, implementation = example(name, "spec.v"), example(name, "impl.v")
            report = write(self.folder, "report", bbeq(spec, implementation).out)
            waves = os.path.join(self.folder, f"{name}.vcd")
            done = run([script("wave"), report, spec, implementation, "--vcd", waves])
            marked = [line for line in done.out.splitlines() if "named by the report" in line]
            vector = [f"input {shown(bits)}" for _, _, bits in vectors(read(report).splitlines())]
            right = (done.status == 0 and os.path.getsize(waves) > 100
                     and (not wrong or len(marked) == 1 and "wrong" in marked[0]))
            self.note(f"wave {name}: the wrong output is seen", right, done.why())
            self.note(f"wave {name}: the vector stands above the table",
                      vector == done.out.splitlines()[1:2], done.why())
        open_bit = run([script("wave"),
                        write(self.folder, "adder",
                              bbeq(example("adder", "spec.v"), example("adder", "impl.v")).out),
                        example("adder", "spec.v"), example("adder", "impl.v")], self.folder)
        self.note("wave adder: what the box leaves open is x",
                  re.search(r"^output cout +0 +x$", open_bit.out, re.MULTILINE), open_bit.why())
        for told, right, wrong in (("", "d ^ q", "d ^ {q[0], q[0]}"),
                                   (" of a sum", "d + q", "d ^ q")):
            spec = write(self.folder, "s.v",
                         REGISTERED.format(f"q <= {right}", "q > 2'd1 && !q[0]"))
            implementation = write(self.folder, "i.v",
                                   REGISTERED.format(f"q <= {wrong}", "q[1] & ~q[0]"))
            report = write(self.folder, "report", bbeq(spec, implementation).out)
            done = run([script("wave"), report, spec, implementation, "--vcd",
                        os.path.join(self.folder, "next.vcd")])
            seen = (done.status == 0
                    and re.search(r"next u1\.q\[1\] .*wrong +\(named by the report\)", done.out))
            self.note(f"wave: a wrong next state{told} is seen", seen, done.why())


REGISTERED = """module cnt(clk, d, y);
  input clk; input [1:0] d; output y;
  stage u1(.clk(clk), .d(d), .y(y));
endmodule
module stage(clk, d, y);
  input clk; input [1:0] d; output y;
  reg [1:0] q;
  always @(posedge clk) {};
  assign y = {};
endmodule
"""


# order

def ripple(width):
    """An adder whose two numbers stand one behind the other."""
    lines = [f"module add(a, b, ci, s, co); input [{width - 1}:0] a, b; input ci; output "
             f"[{width - 1}:0] s; output co;",
             f"  wire [{width}:0] c; assign c[0] = ci; assign co = c[{width}];"]
    lines += [f"  xor(s[{i}], a[{i}], b[{i}], c[{i}]); assign c[{i + 1}] = a[{i}] & b[{i}] | "
              f"a[{i}] & c[{i}] | b[{i}] & c[{i}];" for i in range(width)]
    return "\n".join([*lines, "endmodule", ""])


SUM = """module add(a, b, ci, s, co); input [7:0] a, b; input ci; output [7:0] s; output co;
  assign {co, s} = a + b + ci;
endmodule
"""


class Order(Tries):
    part = "order"

    def test_order(self):
        ordered = os.path.join(self.folder, "ordered.v")
        for name, text in (("an adder of 8 bits", ripple(8)), ("a sum of two words", SUM)):
            spec = write(self.folder, "adder.v", text)
            done = run([script("order"), spec, "-o", ordered])
            counts = re.search(r"(\d+) nodes in the old order, (\d+) in the new one", done.err)
            fell = counts and 4 * int(counts.group(2)) < int(counts.group(1))
            self.note(f"order: {name}; {done.err.strip()}", done.status == 0 and fell, done.why())
            done = bbeq(ordered, spec, "--to", "output")
            self.note("order: the ordered text fits the implementation as it is",
                      done.status in (0, 3), done.why())
        for source in designs_in(DESIGNS):
            made = os.path.join(self.folder, "made.v")
            if run([script("gates"), source, "-o",
                    made]).status or "box" in read(made).splitlines()[0].replace("0 boxes", ""):
                continue
            done = run([script("order"), "--no-count", made, "-o", ordered])
            answer = bbeq(ordered, made, "--to", "local")
            self.note(f"order {os.path.basename(source)}: agrees with the old text",
                      done.status == 0 and answer.status in (0, 3), done.why() + answer.why())


# drat and lrat

def accepts(report, folder):
    names = os.path.join(folder, "proof")
    done = run([script("drat"), report, "-o", names])
    return done if done.status else run([script("lrat"), names + ".cnf", names + ".lrat"])


def refutes(folder):
    """What the program itself says of the proof."""
    names = os.path.join(folder, "proof")
    return bbeq("--rup", names + ".cnf", names + ".drat")


class Drat(Tries):
    part = "drat"

    def test_drat(self):
        done = accepts(write(self.folder, "report", SMALL_PROOF), self.folder)
        self.note("drat: three clauses", done.status == 0, done.why())
        done = refutes(self.folder)
        self.note("--rup: three clauses", (done.status, done.out) == (0, "rup yes\n"), done.why())
        names = os.path.join(self.folder, "proof")
        lines = read(names + ".cnf").splitlines(True)
        # Each of the three clauses is needed, so none may be another.
        one = next((at for at, line in enumerate(lines) if at and len(line.split()) > 1), 0)
        lines[one] = " ".join(str(-int(word)) for word in lines[one].split()) + "\n"
        done = run([script("lrat"), write(self.folder, "other.cnf", "".join(lines)),
                    names + ".lrat"])
        self.note("lrat refuses the proof for another formula", is_told(done, "lrat"), done.why())
        report = bbeq(example("lanes", "spec.v"), example("lanes", "impl.v"), "--proof").out
        done = accepts(write(self.folder, "report", report), self.folder)
        self.note(f"drat: the lanes; {done.out.strip()}", done.status == 0, done.why())
        done = refutes(self.folder)
        self.note("--rup: the lanes", (done.status, done.out) == (0, "rup yes\n"), done.why())
        for wrong, what in ((SMALL_PROOF.replace("1/1 2/2", "2/2 1/1"),
                             "a step that does not resolve"),
                            (SMALL_PROOF.replace(" 2/2", ""), "a last clause that is not empty"),
                            (SMALL_PROOF.replace("step 3 0", "step 3 7"),
                             "a clause that does not stand before")):
            done = accepts(write(self.folder, "report", wrong), self.folder)
            self.note(f"drat refuses {what}", is_told(done, "drat"), done.why())


# refuse

CACHE = "lru::"  # The library of the diagrams' cache.
FOUR = "p cnf 2 4\n1 2 0\n-1 2 0\n1 -2 0\n-1 -2 0\n"


class Refuse(Tries):
    part = "refuse"

    def test_refuse(self):
        rup = ["--rup", write(self.folder, "f.cnf", FOUR),
               write(self.folder, "f.drat", "2 0\nd 1 2 0\n0\n")]
        pairs = {name: [example(name, "spec.v"), example(name, "impl.v")]
                 for name in ("carry", "lanes")}
        for name, words in (("a refutation", rup), ("the carry", pairs["carry"]),
                            ("the lanes", [*pairs["lanes"], "--proof"]),
                            ("a refusal", [pairs["carry"][0], rup[1]])):
            for options in (["--all"], ["--all", "--onwards"]):
                done = run([script("refuse"), BBEQ, *options, "--", *words])
                counts = re.match(r"(\d+) allocations, (\d+) refused: (\d+) answers 5, "
                                  r"(\d+) the run's own, 0 others\n", done.out)
                right = (done.status == 0 and counts
                         and int(counts.group(1)) == int(counts.group(2)) > 0)
                self.note(f"refuse {' '.join(options)}, {name}; "
                          f"{done.out.splitlines()[0] if done.out else ''}", right, done.why())
                # An entry of the diagrams' cache may be dropped, and nothing else is done without.
                named = re.findall(r"^own answer without the memory that (\S+) wanted", done.out,
                                   re.MULTILINE)
                self.note(f"refuse {' '.join(options)}, {name}: what goes on without memory",
                          all(name.startswith(CACHE) for name in named), done.why())
        done = run([script("refuse"), BBEQ, "--limits", "20", "--", *pairs["carry"]])
        self.note(f"refuse --limits 20; {done.out.strip()}",
                  done.status == 0 and done.out.startswith("20 limits"), done.why())
        done = run([script("fuzz"), "--runs", "300", "--keep", self.folder])
        self.note(f"fuzz; {' '.join(done.out.split())}",
                  done.status == 0 and "300 draws" in done.out, done.why())
        for words, what in (([os.path.join(self.folder, "none"), "--", "a"],
                             "a program that is not there"), ([BBEQ, "a"], "words without --")):
            done = run([script("refuse"), *words])
            self.note(f"refuse refuses {what}", is_told(done, "refuse"), done.why())
        done = run([script("refuse"), BBEQ, "--", "a"],
                   env={**os.environ, "PATH": bare_path(os.path.join(self.folder, "bin"))})
        self.note("refuse without cc",
                  is_told(done, "refuse") and "cc is not installed" in done.err, done.why())
        done = run([script("fuzz"), "--no-such-word"])
        self.note("fuzz --no-such-word", is_told(done, "fuzz"), done.why())
