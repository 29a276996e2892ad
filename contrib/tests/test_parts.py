"""The tries of `parts`: how many parts there are, by a closure of its own; that what is joined of
the parts is what the program says of the whole; and texts that are hard to cut."""
import os
import re

from bbeq_tools.developing.drawn import drawn_apart
from bbeq_tools.developing.lanes import lanes_pair
from bbeq_tools.reference.truths import MOST_CONTENTS, pair_of, vectors
from bbeq_tools.report.reports import vectors as vectors_in
from bbeq_tools.verilog.bits import Bit
from bbeq_tools.verilog.language import Reader, top_of
from bbeq_tools.verilog.values import Design
from bbeq_tools.verilog.world import World
from tests.tries import Tries, bbeq, example, is_told, read, run, script, write

DRAWN = int(os.environ.get("CHECK_PARTS", "40"))


class Parts(Tries):
    part = "parts"

    def test_parts(self):
        verdicts = []
        for seed in range(DRAWN):
            inner = os.path.join(self.folder, str(seed))
            os.mkdir(inner)
            verdicts.append(try_drawn(self, inner, seed))
        decided = [verdict for verdict in verdicts if verdict]
        self.note(f"drawn pairs: {len(decided)} of {DRAWN} are decided whole",
                  2 * len(decided) >= DRAWN)
        for part in (lanes_try, hard_names, hard_texts, shared_try, care_try, bad_words):
            inner = os.path.join(self.folder, part.__name__)
            os.mkdir(inner)
            part(self, inner)


def cut(folder, specification, implementation, *words):
    """The folder of the parts, what was printed, and how many parts there are."""
    made = os.path.join(folder, "parts")
    done = run([script("parts"), specification, implementation, "-o", made, *words])
    return made, done, len(done.out.splitlines()) - 1


def sides_of(folder, texts):
    return [write(folder, name, text) for name, text in zip(("spec.v", "impl.v"), texts)]


# Drawn pairs.

def all_boxes(world, box):
    """The outputs of a box are not known, and are made of what its inputs are made of too."""
    return [Bit(0, 0, frozenset([box.path]).union(*[world.bit(key).boxes
                                                    for key in box.ins]))] * len(box.outs)


def classes_in(text):
    """How many classes of outputs there are that boxes feed, by joining two as long as a box feeds
    both; and the other outputs."""
    modules = {module.name: module for module in Reader(text).modules()}
    design = Design(modules, top_of("a text", modules, None))
    world, registers = (World(design, vectors(design.inputs), all_boxes),
                        {name for kind, name in design.inputs if kind == "register"})
    fed = [make(world).boxes
           for (kind, name), make in design.outputs if kind == "next" or name not in registers]
    classes = []
    for boxes in filter(None, fed):
        met = [other for other in classes if other & boxes]
        classes = [other for other in classes if not other & boxes] + [boxes.union(*met)]
    return len(classes), sum(not boxes for boxes in fed)


def try_drawn(tally, folder, seed):
    texts = drawn_apart(seed)
    specification, implementation = sides_of(folder, texts)
    made, done, count = cut(folder, specification, implementation, "--outputs", "1000")
    classes, free = classes_in(texts[1])
    tally.note(f"drawn pair {seed}: {classes} classes",
               done.status == 0 and count == classes + bool(free), f"{count} parts; {done.why()}")
    whole, joined = bbeq(specification, implementation), run([script("run"), made])
    if whole.status not in (0, 1):
        return None
    lines = joined.out.splitlines()
    alike = (joined.status == whole.status and lines[:1] == [f"parts {count}"]
             and lines[-1:] == whole.out.splitlines()[-1:])
    tally.note(f"drawn pair {seed}: the joined verdict is the whole's", alike, joined.why())
    if joined.status == 0:
        try_tables(tally, folder, seed, whole, joined)
    if vectors_in(lines):
        try_vector(tally, seed, texts, whole, lines)
    return whole.out.splitlines()[-1]


def pins_in(report):
    return re.findall(r"^table (\S+ \S+) ", report, re.MULTILINE)


def try_tables(tally, folder, seed, whole, joined):
    """The tables stand in the order of the boxes, and with them the two agree."""
    tally.note(f"drawn pair {seed}: the order of the tables",
               pins_in(joined.out) == pins_in(whole.out), joined.out)
    report, filled = write(folder, "report", joined.out), os.path.join(folder, "filled.v")
    done = run([script("fill"), "--style", "assign", report, os.path.join(folder, "impl.v"), "-o",
                filled])
    done = done if done.status else bbeq(os.path.join(folder, "spec.v"), filled)
    tally.note(f"drawn pair {seed}: the joined tables agree",
               done.status == 0 and "table" not in done.out, done.why())


def try_vector(tally, seed, texts, whole, lines):
    """The vector has the inputs of the whole in their order, and there some output is wrong
    whatever the boxes give."""
    modules = [{module.name: module for module in Reader(text).modules()} for text in texts]
    pair = pair_of(*[(side, top_of("a text", side, None)) for side in modules])
    bits = vectors_in(lines)[0][2]
    own = vectors_in(whole.out.splitlines())
    names = [name for _, name in pair.names]
    tally.note(f"drawn pair {seed}: the inputs of the vector",
               list(bits) == (list(own[0][2]) if own else names), str(bits))
    if sum(len(box.outs) << len(box.ins) for box in pair.boxes) <= MOST_CONTENTS:
        number = int("".join(bits[name] for name in names), 2)
        wrong = all(any(mask >> number & 1 for mask in masks) for masks, _ in pair.free.values())
        tally.note(f"drawn pair {seed}: the vector shows the mistake", wrong, str(bits))


# Texts by hand.

def lanes_try(tally, folder):
    specification, implementation = sides_of(folder, lanes_pair(8, 60))
    made, done, count = cut(folder, specification, implementation)
    tally.note("eight lanes are eight parts", done.status == 0 and count == 8, done.why())
    joined = run([script("run"), made])
    tally.note("eight lanes are repairable",
               joined.status == 0 and joined.out.startswith("parts 8\ntable l0u z "), joined.why())
    rows = [line.split("\t") for line in read(os.path.join(made, "parts.tsv")).splitlines()]
    tally.note("parts.tsv has a line a part, the largest last",
               len(rows) == 9 and rows[0][0] == "part" and [float(row[5]) for row in rows[1:]]
               == sorted(float(row[5]) for row in rows[1:]), str(rows[:2]))
    specification, implementation = sides_of(folder, lanes_pair(140, 20))
    done = run([script("parts"), specification, implementation, "-o", os.path.join(folder, "many")])
    whole, part = bbeq(specification,
                       implementation), bbeq(*[os.path.join(folder, "many", "140", side)
                                               for side in ("spec.v", "impl.v")])
    tally.note("a pair with too many inputs and pins is cut all the same",
               whole.out == "refused pair pins\n" and len(done.out.splitlines()) == 141
               and part.status == 0, f"{whole.why()} {done.why()} {part.why()}")
    for number, row in enumerate(rows[1:], 1):
        sides = [os.path.join(made, str(number), side) for side in ("spec.v", "impl.v")]
        # With less than those of a vector none is held, and with those over all vectors the check
        # always decides.
        below, count = int(2 ** (float(row[5]) - int(row[2])) * 0.95), int(2 ** float(row[5])
                                                                           * 1.05)
        told = [bbeq(*sides, "--from", "expand", "--clauses", str(budget)).out.splitlines()[0]
                for budget in (below, count)]
        tally.note(f"the clauses of part {number} are those that are counted",
                   told[0] == "rung expand clauses" != told[1], str(told))


# Inputs, outputs, registers and boxes with escaped names; nets that would take them in a flat text;
# and a name in two instances.
HARD = r"""module \top// (\a[1] , \assign , \y; , \z[0] , clk);
  input \a[1] , \assign , clk; output \y; , \z[0] ; wire \in.side.o , \in.side.i ;
  FILL
  and(\in.side.i , \a[1] , \assign ); or(\in.side.o , \in.side.i , \z[0] );
  \sub(* \in.side (\in.side.o , \z[0] , clk); \sub(* \r/* (\a[1] , \y; , clk);
endmodule
module \sub(* (i, o, clk); input i, clk; output o; reg \q" ;
  assign o = \q" ^ i; always @(posedge clk) \q" <= i & o;
endmodule
"""


# The net u.q of the top, and the net q of the instance u.
SAME = """module m(a, b, y); input a, b; output y; wire t; and(\\u.q , a, b);
  s u(b, a, t); xor(y, \\u.q , t);
endmodule
module s(i, j, o); input i, j; output o; nor(q, i, j); or(o, q, i); endmodule
"""


def hard_names(tally, folder):
    texts = [HARD.replace("  FILL\n", ""),
             HARD.replace("  FILL\n", "  wire w; \\box{ \\in.b (\\assign , w);\n").replace(
        "(\\in.side.i , \\a[1] , \\assign )", "(\\in.side.i , \\a[1] , w)")
             + "module \\box{ (i, \\o, ); input i; output \\o, ; endmodule\n"]
    texts[0] = texts[0].replace("or(\\in.side.o , \\in.side.i , \\z[0] )",
                                "buf(\\in.side.o , \\in.side.i )")
    texts[1] = texts[1].replace("or(\\in.side.o , \\in.side.i , \\z[0] )",
                                "buf(\\in.side.o , \\in.side.i )")
    specification, implementation = sides_of(folder, texts)
    made, done, _ = cut(folder, specification, implementation)
    joined, whole = run([script("run"), made]), bbeq(specification, implementation)
    tally.note("escaped names", whole.status == joined.status == 0 and pins_in(whole.out)
               == pins_in(joined.out) == ["in.b o,"], f"{done.why()} {whole.why()} {joined.why()}")
    for name, text, told in (("an input and a register",
                              "module m(a, \\u.q , clk, y); input a, \\u.q , clk; output y; and(y, "
                              "a, \\u.q ); s u(a, clk); endmodule\nmodule s(d, c); input d, c; reg "
                              "q; always @(posedge c) q <= d; endmodule\n", "u.q"), (
            "an output and a register",
            "module m(a, \\u.q , clk); input a, clk; output \\u.q ; buf(\\u.q , a); s u(a, clk); "
            "endmodule\nmodule s(d, c); input d, c; reg q; always @(posedge c) q <= d; endmodule\n",
            "u.q"), ("an input and an output", "module m(a, \\a[0] ); input [1:0] a; output \\a[0] "
                     "; buf(\\a[0] , a[1]); endmodule\n", "a[0]")):
        path = write(folder, "clash.v", text)
        done = run([script("parts"), path, path, "-o", os.path.join(folder, "clash")])
        tally.note(f"{name} of one name", is_told(done, "parts") and told in done.err, done.why())
    made, done, count = cut(os.path.join(folder), *sides_of(folder, [SAME] * 2))
    joined = run([script("run"), made])
    tally.note("nets of one name are told apart", count == 1 and joined.status == 0,
               f"{done.why()} {joined.why()}")


HEAD = "module m(a, b, c, clk, y, z, w); input a, b, c, clk; output y, z, w; reg r; "
TEXTS = (
    ("a box that feeds nothing", "buf(y, a); buf(z, b); buf(w, r); always @(posedge clk) r <= a;",
     "wire n; bx u(a, b, n);", 0), ("outputs that are constants or inputs", "assign y = 1'b1, z = "
                                    "a, w = 1'b0; always @(posedge clk) r <= 1'b0;", "", 0),
    ("what one text reads and the other does not", "assign y = a | ~a; buf(z, b); buf(w, r); "
     "always @(posedge clk) r <= c;", "assign y = 1'b1; buf(z, b); assign w = r ^ (c & 1'b0); "
     "always @(posedge clk) r <= c ^ (r & ~r);", None),
    ("a box on a register and before it",
     "and(y, a, r); buf(z, b); buf(w, c); always @(posedge clk) r <= a & b;",
     "bx u(a, r, y); buf(z, b); buf(w, c); bx v(a, b, n); wire n; always @(posedge clk) r <= n;",
     None), ("wide operands", "assign {y, z} = {a, b} & {2{c}} | (r ? {b, a} : 2'b10); xor(w, a, "
             "b, c); always @(posedge clk) r <= {a, b} ? c : r;",
             "wire n; bx u(b, c, n); assign y = a & c | (r ? b : 1'b1), z = n | (r ? a : 1'b0); "
             "xor(w, a, b, c); always @(posedge clk) r <= (a | b) ? c : r;", None),
    ("words", "assign {y, z} = a + b + c; assign w = !{a, b} || {r, c} < 2'd2; always @(posedge "
     "clk) r <= a - b << (b && r);", "wire n; bx u(a, b, n); assign {y, z} = {n, a ^ b} + c; "
     "assign w = (a | b) == 0 || !r; always @(posedge clk) r <= (a != b) & ~(b & r);", None))
BOX = "module bx(i, j, o); input i, j; output o; endmodule\n"


def hard_texts(tally, folder):
    for name, filled, other, same in TEXTS:
        texts = [f"{HEAD}{filled} endmodule\n", f"{HEAD}{filled if same == 0 else ''} {other} "
                 f"endmodule\n{BOX if 'bx' in other else ''}"]
        inner = os.path.join(folder, name.replace(" ", "_"))
        os.mkdir(inner)
        specification, implementation = sides_of(inner, texts)
        made, done, _ = cut(inner, specification, implementation)
        joined, whole = run([script("run"), made]), bbeq(specification, implementation)
        alike = whole.status == joined.status == 0 and pins_in(whole.out) == pins_in(joined.out)
        tally.note(f"parts: {name}", alike, f"{done.why()} {whole.why()} {joined.why()}")
    specification, implementation = sides_of(folder, ["module m(a); input a; endmodule\n",
                                                      "module m(a); input a; bx u(a, a, n); wire "
                                                      "n; endmodule\n" + BOX])
    made, done, count = cut(folder, specification, implementation)
    joined = run([script("run"), made])
    tally.note("a design without outputs", count == 0
               and joined.out == "parts 0\ntable u o 0000\nverdict repairable\n", joined.why())


# Boxes of one module that need other contents, and a specification that is right where k is 1
# alone.
TWO = ("module m(a, b, y, z); input a, b; output y, z; not(y, a); buf(z, b); endmodule\n",
       "module m(a, b, y, z); input a, b; output y, z; bx u(a, y); bx v(b, z); endmodule\nmodule "
       "bx(i, o); input i; output o; endmodule\n")
CARED = ("module m(a, b, c, y, z, k); input a, b, c; output y, z, k; xor(y, a, c); buf(z, b); "
         "xnor(k, b, c); endmodule\n", "module m(a, b, c, y, z); input a, b, c; output y, z; bx "
         "u(a, b, y); buf(z, c); endmodule\n" + BOX)


def shared_try(tally, folder):
    specification, implementation = sides_of(folder, TWO)
    made, done, count = cut(folder, specification, implementation)
    joined = run([script("run"), made])
    tally.note("two boxes of one module are two parts, each repairable",
               count == 2 and joined.status == 0, joined.why())
    done = run([script("run"), made, "--shared"])
    tally.note("run --shared of parts that were not joined for it", is_told(done, "run"),
               done.why())
    made, done, count = cut(folder, specification, implementation, "--shared")
    tally.note("parts --shared joins them",
               count == 1 and "\t2\t" in read(os.path.join(made, "parts.tsv")), done.why())
    own = bbeq(specification, implementation, "--shared")
    joined = run([script("run"), made])
    tally.note(f"run of parts that share a module hands --shared on: {own.out.splitlines()[-1]}",
               joined.status == own.status and joined.out.splitlines()[-1:]
               == own.out.splitlines()[-1:] and own.status in (0, 1), joined.why())


def care_try(tally, folder):
    specification, implementation = sides_of(folder, CARED)
    own = bbeq(specification, implementation, "--care", "k")
    made, done, _ = cut(folder, specification, implementation, "--care", "k")
    texts = [[read(os.path.join(made, part, side)) for side in ("spec.v", "impl.v")]
             for part in ("1", "2")]
    tally.note("parts --care: each part has the care output with what it reads", done.status == 0
               and all("output k;" in spec and "output k;" not in imp
                       and all(f"input {bit};" in text for text in (spec, imp) for bit in "bc")
                       for spec, imp in texts), str(texts))
    joined = run([script("run"), made])
    tally.note("run hands --care on", joined.status == own.status == 0, joined.why())
    for name in ("y", "nothing"):
        other = bbeq(specification, implementation, "--care", name)
        done = run([script("parts"), specification, implementation, "-o",
                    os.path.join(folder, name), "--care", name])
        tally.note(f"parts --care {name}: {other.out.strip()}", (done.status, done.out)
                   == (2, other.out) and not os.path.exists(os.path.join(folder, name)), done.why())


def bad_words(tally, folder):
    specification, implementation = example("carry", "spec.v"), example("carry", "impl.v")
    made = os.path.join(folder, "made")
    broken = write(folder, "broken.v", "module m(a; endmodule\n")
    for shown, words in (("a pair that does not fit", [specification, example("alu", "impl.v")]),
                         ("a text that is refused", [broken, implementation]),
                         ("no common top", ["--top-impl", "other", specification, implementation]),
                         ("no file", [specification, "nowhere.v"])):
        own, done = bbeq(*words), run([script("parts"), *words, "-o", made])
        tally.note(f"parts: {shown}: {own.out.strip()}", (done.status, done.out)
                   == (own.status, own.out) and not os.path.exists(made), done.why())
    busy = os.path.join(folder, "busy")
    os.mkdir(busy)
    write(busy, "file", "")
    for shown, words in (("a folder with other files", [specification, implementation, "-o", busy]),
                         ("a file", [specification, implementation, "-o", broken]),
                         ("no outputs a part",
                          [specification, implementation, "-o", made, "--outputs", "0"]),
                         ("no folder", [specification, implementation])):
        done = run([script("parts"), *words])
        tally.note(f"parts: {shown}", is_told(done, "parts") and not os.path.exists(made),
                   done.why())
    run([script("parts"), specification, implementation, "-o", made])
    done = run([script("parts"), example("nor", "spec.v"), example("nor", "impl.v"), "-o", made])
    tally.note("parts: a folder with parts of another pair",
               is_told(done, "parts") and "carry" in done.err, done.why())
    done = run([script("parts"), specification, implementation, "-o", made])
    tally.note("parts: a folder with parts of the same pair", done.status == 0, done.why())
